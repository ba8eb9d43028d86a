# The sum of four numbers, and then a load that faults.
_start: la   a0, table
        li   a1, 4
next:   lw   a2, 0(a0)
        add  a3, a3, a2
        addi a0, a0, 4
        addi a1, a1, -1
        bnez a1, next
        lw   a4, 2(a0)          # an address that is no multiple of 4
        li   a7, 0
        ecall
table:  .word 3, 5, 7, 11
