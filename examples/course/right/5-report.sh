grep error log | tee errors | wc
