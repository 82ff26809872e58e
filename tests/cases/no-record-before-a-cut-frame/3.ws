4f 4c 41 50 4d 57 31 0a   # OLAPMW1 and LF
01 00 00 00 01             # an open gate, and the length
45   # no record
01                         # an open gate at the end
