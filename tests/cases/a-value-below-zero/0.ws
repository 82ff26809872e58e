4f 4c 41 50 4d 57 31 0a   # OLAPMW1 and LF
01 00 00 00 0e             # an open gate, and the length of the definitions
44 01 00 02 01 61 03 02 00 01 62 03 02 00 # the definitions of a and b
01 00 00 00 11             # an open gate, and the length of the commit
43 01 00 01 00 01 4d 00 00 00 00 01 02 ff ff ff ff # b is set to -1
00                         # the closed gate
