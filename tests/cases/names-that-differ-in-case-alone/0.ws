4f 4c 41 50 4d 57 31 0a   # OLAPMW1 and LF
01 00 00 00 0e             # an open gate, and the length
44 01 00 02 01 76 03 02 00 01 56 03 02 00   # the definitions of v and V
00                         # the closed gate
