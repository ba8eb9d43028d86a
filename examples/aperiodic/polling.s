# Looks for events each 120 ticks, serves all that have come, and sleeps until the next look. events.s stands behind this.
_start: la   s0, events
        li   s1, 0              # events served so far
        li   s2, 0              # the tick of this look: START of the set file at first
look:   li   a7, 4              # call 4: now, the low half in a0
        ecall
        lw   t0, 0(s0)
        bgtu t0, a0, rest       # it comes later
        jal  serve
        j    look
rest:   addi s2, s2, 120        # PERIOD of the set file
        mv   a0, s2
        li   a1, 0
        li   a7, 2              # call 2: sleep until tick a0 + a1 * 2^32
        ecall
        j    look
