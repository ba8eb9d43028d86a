# A filter: each 350 ticks the median of the last five samples. They are those of a tank that drains, by 3 a sample, and
# is filled up to 240 at once when it is empty.
#
# s0 the tick of the next release     s1 the sample     s2 the median     s3, s4, s5 the window, its copy, the copy's end
_start: li   s0, 0              # START of the set file: it stands twice, as no call tells it
        la   s3, window
        addi s4, s3, 20
        addi s5, s3, 40
job:    addi s1, s1, -3
        srai t0, s1, 31         # -1 where the tank is empty, else 0. There is no branch in this, so that filling it takes
        andi t0, t0, 243        #   no other time than not filling it
        add  s1, s1, t0
        lw   t0, 4(s3)          # the oldest of the five goes, and the newest stands last
        lw   t1, 8(s3)
        lw   t2, 12(s3)
        lw   t3, 16(s3)
        sw   t0, 0(s3)
        sw   t1, 4(s3)
        sw   t2, 8(s3)
        sw   t3, 12(s3)
        sw   s1, 16(s3)
        sw   t0, 0(s4)          # a copy of them, to be sorted
        sw   t1, 4(s4)
        sw   t2, 8(s4)
        sw   t3, 12(s4)
        sw   s1, 16(s4)
        addi t0, s4, 4          # by insertion: what stands left of t0 is in order
insert: lw   t1, 0(t0)
        mv   t2, t0             # where it goes
left:   beq  t2, s4, put
        lw   t3, -4(t2)
        ble  t3, t1, put        # a sample that isn't below those to its left comes here at once,
        sw   t3, 0(t2)          #   else 6 ticks later for each that is above it
        addi t2, t2, -4
        j    left
put:    sw   t1, 0(t2)
        addi t0, t0, 4
        bne  t0, s5, insert
        lw   s2, 8(s4)          # the one in the middle
        addi s0, s0, 350        # at least PERIOD of the set file
        mv   a0, s0
        li   a1, 0
        li   a7, 2              # call 2: sleep until tick a0 + a1 * 2^32
        ecall
        j    job
window: .zero 20                # the last five samples, the oldest first
sorted: .zero 20
