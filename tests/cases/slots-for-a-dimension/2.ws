4f 4c 41 50 4d 57 31 0a   # OLAPMW1 and LF
01 00 00 00 07   # an open gate, and the length
44 01 00 01   # definitions
01 64 00   # d: a dimension
01 00 00 00 0d   # an open gate, and the length
43 01 00 01   # a commit
00 00 53 00 00 00 01   # object 0: new slots
00 01   # slot 1
00   # the closed gate
