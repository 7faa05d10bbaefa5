cat notes | wc
