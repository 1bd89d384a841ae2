          lw    $1, 72($0)
          lw    $3, 76($0)
          lw    $4, 80($0)
outer:    add   $2, $1, $4
          beq   $2, $3, stop
          lw    $5, 0($1)
inner:    lw    $6, 0($2)
          slt   $7, $6, $5
          beq   $7, $0, next
          sw    $6, 0($1)
          sw    $5, 0($2)
          add   $5, $6, $0
next:     add   $2, $2, $4
          beq   $2, $3, round
          j     inner
round:    add   $1, $1, $4
          j     outer
stop:     .word fc000000

start:    .word 00000054
end:      .word 0000006c
four:     .word 00000004
numbers:  .word 0000001e
          .word fffffff9
          .word 0000000c
          .word 00000063
          .word 80000000
          .word 00000005
