awk 'BEGIN {
    print "volume 16384 512 8 3 packed"
    for (n = 0; n < 200; n++) print "file /f" n " 644 100 97"
    print "end"
}'
