cat a &
cat b
