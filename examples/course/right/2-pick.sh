grep error log | head -2
