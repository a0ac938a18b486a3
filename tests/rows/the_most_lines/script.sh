yes "now 0" | head -n 99999
echo end
