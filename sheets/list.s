          lw    $1, 36($0)
loop:     beq   $1, $0, done
          lw    $3, 4($1)
          sw    $2, 4($1)
          add   $2, $1, $0
          add   $1, $3, $0
          j     loop
done:     sw    $2, 36($0)
stop:     .word fc000000

head:     .word 00000030
third:    .word 00000021
          .word 00000040
first:    .word 0000000b
          .word 00000048
fifth:    .word 00000037
          .word 00000000
fourth:   .word 0000002c
          .word 00000038
second:   .word 00000016
          .word 00000028
