# A file with 64,999 further names, and one that is too many.
echo mount
echo 1 create /f 644
for ((n = 1; n <= 65000; n++)); do
    echo "1 link /f /$n"
done
echo 1 stat /f
echo 1 unlink /1
echo 1 link /f /1
echo unmount
echo end
