# A controller of two modes. A job of its calm mode takes 10 ticks, one of its busy mode 18. At the end of its
# third job it asks for the busy mode's budget; from the next job on it has it, and does the busy mode's work.
_start: li   s0, 0              # the tick of the next release, at first START
        li   s1, 0              # jobs so far
        li   s2, 0              # rounds of work a job, by mode
job:    addi s1, s1, 1
        mv   t1, s2
        beqz t1, done
work:   addi t1, t1, -1
        bnez t1, work
done:   li   t0, 3
        bne  s1, t0, rest
        li   a7, 5              # call 5: reserve a0 ticks
        li   a0, 20
        ecall
        bnez a0, rest           # refused: the mode stays calm
        li   s2, 4
rest:   addi s0, s0, 40
        mv   a0, s0
        li   a7, 2              # call 2: sleep until tick a0
        ecall
        j    job
