4f 4c 41 50 4d 57 31 0a   # OLAPMW1 and LF
01 00 00 00 04             # an open gate, and the length of the definitions
44 01 00 00                # none are defined
00                         # the closed gate
