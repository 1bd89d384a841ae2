stop:     .word fc000000
