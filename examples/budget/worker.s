# A job of this task takes 10 ticks, and each fourth one 19. Its period is 20.
_start: li   s0, 0              # the tick of the next release, at first START
        li   s1, 0              # jobs so far
        li   a1, 0
        li   a7, 2              # call 2: sleep until tick a0 + a1 * 2^32
job:    addi s1, s1, 1
        andi t0, s1, 3
        li   t1, 1
        bnez t0, work
        li   t1, 5              # the long job
work:   addi t1, t1, -1         # rounds of two ticks
        bnez t1, work
        addi s0, s0, 20
        mv   a0, s0
        ecall
        j    job
