yes "now 0" | head -n 200000
