          j     over
          .word fc000000
          .word fc000000
over:     j     stop
          .word fc000000
stop:     .word fc000000
