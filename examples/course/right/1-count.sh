wc < notes
