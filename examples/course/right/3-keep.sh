grep error log > errors
cat errors
