awk 'BEGIN {
    print "inode 1 d 755 3 224 0"
    print "entry 1 d 65 d"
    for (n = 1; n <= 20000; n++) size += int((57 + length(n) + 7) / 8) * 8
    print "inode 65 d 755 2 " 160 + size " 0"
    for (n = 1; n <= 20000; n++) {
        print "inode " 65 + n " f 644 1 0 0"
        print "entry 65 " n " " 65 + n " f"
    }
}'
