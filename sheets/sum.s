          lw    $1, 40($0)
          lw    $2, 44($0)
          lw    $3, 48($0)
loop:     beq   $1, $2, done
          lw    $4, 0($1)
          add   $5, $5, $4
          add   $1, $1, $3
          j     loop
done:     sw    $5, 52($0)
stop:     .word fc000000

start:    .word 00000038
end:      .word 00000058
four:     .word 00000004
sum:      .word 00000000
numbers:  .word 00000003
          .word ffffffff
          .word 00000064
          .word 00000007
          .word 00000000
          .word ffffffec
          .word 0000000c
          .word 000003e8
