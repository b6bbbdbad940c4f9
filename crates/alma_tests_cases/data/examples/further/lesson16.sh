alma all four.al
