# Never sleeps: looks for an event, and yields as long as there is none. events.s stands behind this.
_start: la   s0, events
        li   s1, 0              # events served so far
look:   li   a7, 4              # call 4: now, the low half in a0
        ecall
        lw   t0, 0(s0)
        bleu t0, a0, come
        li   a7, 3              # call 3: yield, which gives the rest of the budget away and moves the deadline a period on
        ecall
        j    look
come:   jal  serve
        j    look
