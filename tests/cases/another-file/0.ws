61 6e 6f 74 68 65 72 20 66 69 6c 65 # another file
