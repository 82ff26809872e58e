4f 4c 41 50 4d 57 31 0a   # OLAPMW1 and LF
01 00 00 00 0e   # an open gate, and the length
44 01 00 02   # definitions
01 64 00   # d: a dimension
01 76 03 02 01 00 00   # v: a variable, INTEGER, over object 0
01 00 00 00 17   # an open gate, and the length
43 01 00 01   # a commit
00 00 4c 00 00 ff fe 00 00 00 01   # object 0: new values, the next slot is 65534
00 02 05 4e 6f 72 74 68   # slot 2 is North
00   # the closed gate
