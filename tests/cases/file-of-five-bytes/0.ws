4f 4c 41 50 4d             # OLAPM
