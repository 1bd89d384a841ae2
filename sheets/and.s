          lw    $1, 28($0)
          lw    $2, 32($0)
          and   $3, $1, $2
          lw    $4, 36($0)
          beq   $3, $4, right
wrong:    .word fc000000
right:    .word fc000000

first:    .word ff00ff00
second:   .word 0ff00ff0
result:   .word 0f000f00
