          lw    $1, 28($0)
          sw    $1, 4($1)
          lw    $2, 44($0)
          beq   $1, $2, right
wrong:    .word fc000000
right:    .word fc000000

          .word 00000000
pointer:  .word 00000028
