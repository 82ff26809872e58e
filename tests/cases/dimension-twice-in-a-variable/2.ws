4f 4c 41 50 4d 57 31 0a   # OLAPMW1 and LF
01 00 00 00 10   # an open gate, and the length
44 01 00 02   # definitions
01 64 00   # d: a dimension
01 76 03 02 02 00 00 00 00   # v: a variable, INTEGER over object 0, object 0
00   # the closed gate
