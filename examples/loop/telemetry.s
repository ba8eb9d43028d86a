# Each 2000 ticks a line of text: how many lines that makes, and the tick, in hexadecimal digits.
_start: li   s0, 150            # START of the set file: the first release. Here and there it has to be the same
        li   s1, 0              # lines so far
line:   addi s1, s1, 1
        la   s2, text           # where the next digit goes
        mv   a0, s1
        jal  digits
        addi s2, s2, 1          # the blank
        li   a7, 4              # call 4: now, the low half in a0
        ecall
        jal  digits
        la   a0, text
        li   a1, 18
        li   a7, 1              # call 1: write. After 3640 lines the output is full, and each further one is refused
        ecall
        li   t0, 2000           # PERIOD of the set file
        add  s0, s0, t0
        mv   a0, s0
        li   a1, 0
        li   a7, 2              # call 2: sleep until tick a0 + a1 * 2^32
        ecall
        j    line

# The eight digits of a0, from s2 on; s2 then stands behind them.
digits: li   t0, 28             # the highest four bits first
digit:  srl  t1, a0, t0
        andi t1, t1, 15
        li   t2, 10
        blt  t1, t2, decimal
        addi t1, t1, 39         # from behind 9 to a
decimal:
        addi t1, t1, 48         # 0
        sb   t1, 0(s2)
        addi s2, s2, 1
        addi t0, t0, -4
        bgez t0, digit
        ret

text:   .ascii "........ ........\n"
