awk 'BEGIN {
    print "inode 1 d 755 2 12960 0"
    for (n = 0; n < 200; n++) {
        print "entry 1 f" n " " 65 + n " f"
        print "inode " 65 + n " f 644 1 100 0"
        print "block " 65 + n " 0 100x61"
    }
}'
