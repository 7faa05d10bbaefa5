grep error log | tee errors
