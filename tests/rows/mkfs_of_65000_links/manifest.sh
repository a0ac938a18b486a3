# A file with 64,999 further names.
awk 'BEGIN {
    print "volume 126976 2048 256 8"
    print "file /f 644 3 97"
    for (n = 1; n < 65000; n++) print "link /f /" n
    print "end"
}'
