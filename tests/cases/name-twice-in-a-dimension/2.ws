4f 4c 41 50 4d 57 31 0a   # OLAPMW1 and LF
01 00 00 00 07   # an open gate, and the length
44 01 00 01   # definitions
01 64 00   # d: a dimension
01 00 00 00 1f   # an open gate, and the length
43 01 00 01   # a commit
00 00 4c 00 00 00 03 00 00 00 02   # object 0: new values, the next slot is 3
00 00 05 4e 6f 72 74 68   # slot 0 is North
00 01 05 4e 6f 72 74 68   # slot 1 is North
00   # the closed gate
