4f 4c 41 50 4d 57 31 0a   # OLAPMW1 and LF
01 00 00 00 30   # an open gate, and the length
44 01 00 08   # definitions
01 64 00   # d: a dimension
01 65 00   # e: a dimension
01 72 01 00 00 00 00   # r: a relation from object 0 to object 0
01 73 02 00 00   # s: a valueset of object 0
01 6e 03 01 02 00 00 00 01   # n: a variable, NUMBER over object 0, object 1
01 74 03 03 01 00 00   # t: a variable, TEXT over object 0
01 62 03 04 00   # b: a variable, BOOLEAN
01 69 03 02 00   # i: a variable, INTEGER
01 00 00 00 2f   # an open gate, and the length
43 01 00 02   # a commit
00 00 4c 00 00 00 03 00 00 00 02   # object 0: new values, the next slot is 3
00 02 05 4e 6f 72 74 68   # slot 2 is North
00 00 04 45 61 73 74   # slot 0 is East
00 01 4c 00 00 00 01 00 00 00 01   # object 1: new values, the next slot is 1
00 00 03 4a 61 6e   # slot 0 is Jan
01 00 00 00 63   # an open gate, and the length
43 01 00 06   # a commit
00 02 4d 01 00 00 00 01   # object 2: cells
00 00 05 00 02   # at 0: slot 2
00 03 53 00 00 00 02   # object 3: new slots
00 02   # slot 2
00 00   # slot 0
00 04 4d 02 00 00 00 02   # object 4: cells
00 00 00 00 01 00 00 00 00 00 00 3a 98   # at 0 0: 1.5
00 02 00 00 01 ff ff ff ff ff ff ff ff   # at 2 0: -0.0001
00 05 4d 01 00 00 00 01   # object 5: cells
00 00 03 02 48 69   # at 0: Hi
00 06 4d 00 00 00 00 01   # object 6: cells
04 01   # at no slots: YES
00 07 4d 00 00 00 00 01   # object 7: cells
02 00 00 00 07   # at no slots: 7
00   # the closed gate
