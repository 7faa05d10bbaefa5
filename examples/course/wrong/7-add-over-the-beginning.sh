cat list > new; echo end >> new
