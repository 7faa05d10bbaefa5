cat a b
