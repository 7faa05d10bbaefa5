grep error log > errors | wc < errors
