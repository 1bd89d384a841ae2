          lw    $1, 28($0)
          lw    $2, 32($0)
          slt   $3, $1, $2
          lw    $4, 36($0)
          beq   $3, $4, right
wrong:    .word fc000000
right:    .word fc000000

first:    .word 80000000
second:   .word 7fffffff
result:   .word 00000001
