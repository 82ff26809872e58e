4f 4c 41 50 4d 57 31 0a   # OLAPMW1 and LF
01 00 00 00 13   # an open gate, and the length
44 01 00 03   # definitions
01 64 00   # d: a dimension
01 76 03 02 00   # v: a variable, INTEGER
01 72 01 00 01 00 00   # r: a relation from object 0 to object 1
00   # the closed gate
