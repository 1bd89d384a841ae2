          lw    $1, 28($0)
          lw    $2, 32($0)
          sub   $3, $1, $2
          lw    $4, 36($0)
          beq   $3, $4, right
wrong:    .word fc000000
right:    .word fc000000

first:    .word 00000000
second:   .word 00000001
result:   .word ffffffff
