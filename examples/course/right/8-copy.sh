cat notes | tee copy | wc > counts
cat counts
