4f 4c 41 50 4d 57 31 0a   # OLAPMW1 and LF
01 00 00 00 0a             # an open gate, and the length
44 01 00 01 02 6e 61 03 02 00   # the definition of na
00                         # the closed gate
