4f 4c 41 50 4d 57 31 0a   # OLAPMW1 and LF
01 00 00 00 2e   # an open gate, and the length
44 01 00 08   # definitions
01 61 00   # a: a dimension
01 62 00   # b: a dimension
01 63 00   # c: a dimension
01 64 00   # d: a dimension
01 65 00   # e: a dimension
01 66 00   # f: a dimension
01 76 03 02 06 00 00 00 01 00 02 00 03 00 04 00 05   # v: a variable, INTEGER over object 0, object 1, object 2, object 3, object 4, object 5
01 77 03 03 01 00 01   # w: a variable, TEXT over object 1
01 00 00 00 53   # an open gate, and the length
43 01 00 02   # a commit
00 06 4d 06 00 00 00 03   # object 6: cells
00 00 00 00 00 00 00 00 00 00 ff ff 02 ff ff ff fb   # at 0 0 0 0 0 65535: -5
00 00 00 00 00 00 00 00 00 01 00 00 02 00 00 00 00   # at 0 0 0 0 1 0: 0
00 01 00 00 00 00 00 00 00 00 00 00 02 7f ff ff ff   # at 1 0 0 0 0 0: 2147483647
00 07 4d 01 00 00 00 02   # object 7: cells
00 09 03 00   # at 9: the empty text
00 0a 03 04 69 74 27 73   # at 10: it's
00   # the closed gate
