          lw    $1, 12($0)
          add   $2, $1, $1
          j     stop
seven:    .word 00000007
stop:     .word fc000000
