          lw    $1, 36($0)
          lw    $2, 40($0)
          lw    $3, 44($0)
loop:     beq   $2, $0, done
          add   $4, $4, $1
          sub   $2, $2, $3
          j     loop
done:     sw    $4, 48($0)
stop:     .word fc000000

factor:   .word 0000000d
times:    .word 0000000b
one:      .word 00000001
product:  .word 00000000
