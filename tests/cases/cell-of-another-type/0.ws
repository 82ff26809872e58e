4f 4c 41 50 4d 57 31 0a   # OLAPMW1 and LF
01 00 00 00 09   # an open gate, and the length
44 01 00 01   # definitions
01 76 03 02 00   # v: a variable, INTEGER
01 00 00 00 10   # an open gate, and the length
43 01 00 01   # a commit
00 00 4d 00 00 00 00 01   # object 0: cells
03 02 48 69   # at no slots: Hi
00   # the closed gate
