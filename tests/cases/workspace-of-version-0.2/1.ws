4f 4c 41 50 4d 57 31 0a   # OLAPMW1 and LF
01 00 00 00 0e             # an open gate, and the length of the definitions
44 01 00 02 01 76 03 02 00 01 77 03 02 00 # the definitions of v and w
01 00 00 00 1e             # an open gate, and the length of the commit
43 01 00 02                # it has two changes
00 00 4d 00 00 00 00 01 02 00 00 00 07 # v is set to 7
00 01 4d 00 00 00 00 01 02 00 00 00 09 # w is set to 9
00                         # the closed gate
