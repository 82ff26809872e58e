4f 4c 41 50 4d 57 31 0a   # OLAPMW1 and LF
01 00 00 00 09             # an open gate, and the length of the definitions
44 01 00 01 01 76 03 02 00 # the definition of v
02 00 00 00 11             # a gate that is closed too
43 01 00
