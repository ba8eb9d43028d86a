_start: li   a7, 2              # call 2: sleep until tick a0
again:  addi a0, a0, 10
        ecall
        j    again
