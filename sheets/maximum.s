          lw    $1, 52($0)
          lw    $2, 56($0)
          lw    $3, 60($0)
          lw    $5, 0($1)
loop:     add   $1, $1, $3
          beq   $1, $2, done
          lw    $4, 0($1)
          slt   $6, $5, $4
          beq   $6, $0, loop
          add   $5, $4, $0
          j     loop
done:     sw    $5, 64($0)
stop:     .word fc000000

start:    .word 00000044
end:      .word 00000060
four:     .word 00000004
largest:  .word 00000000
numbers:  .word fffffffb
          .word 00000011
          .word 80000000
          .word 00000028
          .word 00000027
          .word 00000028
          .word ffffffff
