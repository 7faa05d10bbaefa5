head -2 log | grep error
