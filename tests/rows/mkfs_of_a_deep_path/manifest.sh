# A file behind 1,000 directories, each in the one before.
awk 'BEGIN {
    print "volume 16384 512 64 8"
    for (n = 1; n <= 1000; n++) { path = path "/d"; print "dir " path " 755" }
    print "file " path "/f 644 3 97"
    print "end"
}'
