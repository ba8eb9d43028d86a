# A recorder: each 50 ticks it takes a sample, counts it by its size, and stores it in a ring of words that goes up to
# the end of its RAM. There is a fault in it: docs/EXAMPLES.md hunts it.
#
# s0 the tick of the next release     s2 the sample          s4 samples so far
# s1 where the next sample goes       s3 the counts          s5 where the end of the ring is kept
_start: li   s0, 0              # START of the set file: it stands twice
        la   s1, ring
        li   s2, 37
        la   s3, counts
        la   s5, end
job:    slli t0, s2, 2          # there is no device to read: the sample is 5 times the one before and 29, modulo 128
        add  s2, s2, t0
        addi s2, s2, 29
        andi s2, s2, 127
        mv   a0, s2
        li   t1, 99             # one sample is 128 too high, as a bad contact makes it
        addi s4, s4, 1
        bne  s4, t1, count
        addi a0, a0, 128
count:  srli t0, a0, 4          # one more of its size: there is a count for each sixteen
        add  t0, t0, s3
        lbu  t1, 0(t0)
        addi t1, t1, 1
        sb   t1, 0(t0)
        lw   t2, 0(s5)
        bltu s1, t2, store
        la   s1, ring           # it begins anew
store:  sw   a0, 0(s1)
        addi s1, s1, 4
        addi s0, s0, 50         # PERIOD of the set file
        mv   a0, s0
        li   a1, 0
        li   a7, 2              # call 2: sleep until tick a0 + a1 * 2^32
        ecall
        j    job
counts: .zero 8                 # a byte each: how many samples came of each size, modulo 256
end:    .word 0x80000400        # the end of the ring, and of RAM: 1024 bytes from 0x80000000 on, as the set file says
ring:                           # all that is left
