yes "now 0" | head -n 100000
echo end
