4f 4c 41 50 4d 57 31 0a   # OLAPMW1 and LF
01 00 00 00 0e   # an open gate, and the length
44 01 00 02   # definitions
01 64 00   # d: a dimension
01 76 03 02 01 00 00   # v: a variable, INTEGER over object 0
01 00 00 00 1a   # an open gate, and the length
43 01 00 01   # a commit
00 01 4d 01 00 00 00 02   # object 1: cells
00 02 02 00 00 00 03   # at 2: 3
00 03 02 00 00 00 04   # at 3: 4
00   # the closed gate
