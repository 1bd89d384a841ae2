loop:     j     loop
