          lw    $1, 24($0)
          sw    $1, 12($0)
          add   $0, $0, $0
here:     .word fc000000
wrong:    .word fc000000
stop:     .word fc000000

jump:     j     stop
