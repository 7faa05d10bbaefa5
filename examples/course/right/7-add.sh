(cat list; echo end) > new
