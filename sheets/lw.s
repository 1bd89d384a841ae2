          lw    $1, 32($0)
          lw    $2, -4($1)
          lw    $0, 32($0)
          lw    $3, 36($0)
          beq   $2, $3, zero
wrong:    .word fc000000
zero:     beq   $0, $1, wrong
stop:     .word fc000000

pointer:  .word 0000002c
wanted:   .word 00000007
seven:    .word 00000007
