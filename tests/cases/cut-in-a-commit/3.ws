4f 4c 41 50 4d 57 31 0a   # OLAPMW1 and LF
01 00 00 00 09             # an open gate, and the length of the definitions
44 01 00 01 01 76 03 02 00 # the definition of v
01 00 00 00 11             # an open gate, and the length of the commit
43 01 00                   # the commit ends early
