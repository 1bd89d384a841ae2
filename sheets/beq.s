          beq   $0, $0, forward
          .word fc000000
back:     beq   $0, $0, last
forward:  beq   $0, $0, back
wrong:    .word fc000000
last:     lw    $1, 32($0)
          beq   $0, $1, wrong
stop:     .word fc000000

one:      .word 00000001
