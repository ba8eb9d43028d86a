# A logger that waits until its buffer has been drained. Between two looks it is to sleep, and that was forgotten; and
# nobody ever sets the word that it looks at. So it takes every tick that it is given, and never ends a job.
_start: la   s0, drained
look:   lw   t0, 0(s0)
        beqz t0, look
        li   a7, 0              # call 0: end
        ecall
drained:
        .word 0
