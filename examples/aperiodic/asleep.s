# Serves each event by itself: sleeps until it comes, and does its work then. events.s stands behind this.
_start: la   s0, events
        li   s1, 0              # events served so far
next:   lw   a0, 0(s0)
        li   a1, 0
        li   a7, 2              # call 2: sleep until the event comes. If it has come already this is a sleep into the
        ecall                   #   past: it takes its tick, ends the job, and the next one begins at once
        jal  serve
        j    next
