cat a; cat b
