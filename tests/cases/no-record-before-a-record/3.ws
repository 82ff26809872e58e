4f 4c 41 50 4d 57 31 0a   # OLAPMW1 and LF
01 00 00 00 01             # an open gate, and the length
45   # no record
01 00 00 00 09             # an open gate, and the length
44 01 00 01 01 76 03 02 00   # the definition of v
00                         # the closed gate
