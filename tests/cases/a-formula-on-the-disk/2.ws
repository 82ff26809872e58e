4f 4c 41 50 4d 57 31 0a   # OLAPMW1 and LF
01 00 00 00 13   # an open gate, and the length
44 01 00 02   # definitions
01 76 03 02 00   # v: a variable, INTEGER
01 66 04 00 00 00 03 76 2a 32   # f: a formula
00   # the closed gate
