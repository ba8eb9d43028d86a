# Each 440 ticks a job that always takes 88: 3 before the rounds, 82 in them, 3 behind them.
_start: addi s0, s0, 440        # the next release: PERIOD of the set file after this one. Registers are 0 at first, as
        li   t0, 41             #   START of the set file is
        li   a7, 2              # call 2: sleep until tick a0 + a1 * 2^32, and a1 stays 0
round:  addi t0, t0, -1
        bnez t0, round
        mv   a0, s0
        ecall
        j    _start
