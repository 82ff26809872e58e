4f 4c 41 50 4d 57 31 0a   # OLAPMW1 and LF
00                         # the closed gate
