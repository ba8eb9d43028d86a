# A control loop: one PID step each 500 ticks, in fixed point with 8 bits behind the point, so that 256 is 1.0.
#
# There is no device to read, so what it controls is in here too: a level that moves on by 1/16 of what the valve is
# above it, a period. It is to come to 100, and from the 26th step on to 60. Each step writes the level, one byte.
#
# s0 the tick of the next release     s3 the error of the step before
# s1 the level                        s4 steps that are left until the level wanted changes
# s2 the sum of all errors            s5 the error of this step        s6 what the valve is set to
_start: li   s0, 0              # START of the set file: it stands twice, as no call tells it
        li   s4, 25
step:   la   s7, wanted
        lw   t0, 0(s7)
        sub  s5, t0, s1
        add  s2, s2, s5
        mv   a0, s5             # the proportional part: 400 / 256 of the error
        li   a1, 400
        jal  multiply
        mv   s6, a0
        mv   a0, s2             # the integral part: 45 / 256 of the sum of errors
        li   a1, 45
        jal  multiply
        add  s6, s6, a0
        sub  a0, s5, s3         # the differential part: 150 / 256 of what the error grew by
        li   a1, 150
        jal  multiply
        add  s6, s6, a0
        mv   s3, s5
        bltz s6, shut           # the valve goes from 0 to 255
        li   t0, 65280
        ble  s6, t0, move
        mv   s6, t0
        j    held
shut:   li   s6, 0
held:   sub  s2, s2, s5         # at its end: the sum doesn't grow, or it would take long to shrink again
move:   sub  t0, s6, s1
        srai t0, t0, 4
        add  s1, s1, t0
        srai t0, s1, 8          # the level in whole units
        la   a0, level
        sb   t0, 0(a0)
        li   a1, 1
        li   a7, 1              # call 1: write. Refused once the output is full, and then the loop goes on without
        ecall
        addi s4, s4, -1
        bnez s4, rest
        li   t0, 15360          # 60 from now on
        sw   t0, 0(s7)
rest:   addi s0, s0, 500        # PERIOD of the set file, from one release to the next, and not from now
        mv   a0, s0
        li   a1, 0
        li   a7, 2              # call 2: sleep until tick a0 + a1 * 2^32
        ecall
        j    step

# a0 * a1 / 256, for a0 with sign and a gain a1 of at least 1. RV32I has no multiplication: this adds a0 once for each
# bit of the gain, shifted. How many ticks it takes depends on the gain alone, never on a0.
multiply:
        li   t0, 0
bit:    andi t1, a1, 1
        beqz t1, skip
        add  t0, t0, a0
skip:   slli a0, a0, 1
        srli a1, a1, 1
        bnez a1, bit
        srai a0, t0, 8
        ret

wanted: .word 25600             # 100
level:  .byte 0
