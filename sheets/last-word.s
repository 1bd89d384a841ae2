          lw    $1, 252($0)
stop:     .word fc000000
