          lw    $1, 44($0)
          lw    $2, 48($0)
          lw    $3, 52($0)
          lw    $4, 56($0)
loop:     beq   $1, $2, stop
          lw    $5, 0($1)
          sw    $5, 0($3)
          add   $1, $1, $4
          add   $3, $3, $4
          j     loop
stop:     .word fc000000

from:     .word 0000003c
end:      .word 00000054
to:       .word 00000054
four:     .word 00000004
numbers:  .word 11111111
          .word 22222222
          .word 33333333
          .word 44444444
          .word 55555555
          .word 66666666
