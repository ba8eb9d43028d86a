
# The work of the event at s0: two ticks a round, and then its number is written. s0 then stands at the next event.
serve:  lw   t0, 4(s0)
round:  addi t0, t0, -1
        bnez t0, round
        addi s1, s1, 1
        la   a0, number
        sb   s1, 0(a0)
        li   a1, 1
        li   a7, 1              # call 1: write one byte
        ecall
        addi s0, s0, 8
        ret
number: .byte 0

# Events, in the order in which they come: the tick, and the rounds of work. The last one never comes.
        .align 2
events: .word 250, 6
        .word 300, 6
        .word 700, 5
        .word 710, 5
        .word 1100, 30
        .word 1330, 6
        .word 1700, 6
        .word 0xffffffff, 1
