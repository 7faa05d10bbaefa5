(cat list; echo end) > list; cat list > new
