          lw    $3, 44($0)
          lw    $6, 48($0)
load:     lw    $4, 56($0)
          add   $2, $2, $4
          lw    $5, 8($0)
          add   $5, $5, $3
          sw    $5, 8($0)
          beq   $5, $6, done
          j     load
done:     sw    $2, 52($0)
stop:     .word fc000000

four:     .word 00000004
past:     .word 8c04004c
sum:      .word 00000000
numbers:  .word 00000001
          .word 0000000a
          .word 00000064
          .word 000003e8
          .word 00002710
