wc notes
