          lw    $1, 40($0)
          lw    $2, 44($0)
loop:     add   $3, $3, $1
          sub   $1, $1, $2
          beq   $1, $0, done
          j     loop
done:     lw    $4, 48($0)
          beq   $3, $4, right
wrong:    .word fc000000
right:    .word fc000000

count:    .word 00000005
one:      .word 00000001
sum:      .word 0000000f
