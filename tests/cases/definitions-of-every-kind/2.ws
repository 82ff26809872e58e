4f 4c 41 50 4d 57 31 0a   # OLAPMW1 and LF
01 00 00 00 64   # an open gate, and the length
44 01 00 0f   # definitions
01 64 00   # d: a dimension
01 45 00   # E: a dimension
01 66 00   # f: a dimension
01 67 00   # g: a dimension
01 68 00   # h: a dimension
01 69 00   # i: a dimension
01 72 01 00 01 00 00   # r: a relation from object 0 to object 1
02 75 70 01 00 00 00 00   # up: a relation from object 0 to object 0
01 73 02 00 03   # s: a valueset of object 3
01 6e 03 01 02 00 00 00 01   # n: a variable, NUMBER over object 0, object 1
01 6a 03 02 02 00 01 00 00   # j: a variable, INTEGER over object 1, object 0
01 74 03 03 03 00 00 00 01 00 05   # t: a variable, TEXT over object 0, object 1, object 5
01 62 03 04 00   # b: a variable, BOOLEAN
03 73 69 78 03 02 06 00 00 00 01 00 02 00 03 00 04 00 05   # six: a variable, INTEGER over object 0, object 1, object 2, object 3, object 4, object 5
01 76 03 02 00   # v: a variable, INTEGER
01 00 00 00 11   # an open gate, and the length
43 01 00 01   # a commit
00 0e 4d 00 00 00 00 01   # object 14: cells
02 00 00 00 07   # at no slots: 7
00   # the closed gate
