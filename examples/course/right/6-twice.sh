echo hello > hi; cat hi hi
