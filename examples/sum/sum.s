# The sum of four numbers, in a0.
        .globl _start
_start: la   a1, numbers
        li   a2, 4              # how many are left
        li   a0, 0
next:   lw   a3, 0(a1)
        add  a0, a0, a3
        addi a1, a1, 4
        addi a2, a2, -1
        bnez a2, next
        li   a7, 0              # call 0: the task ends
        ecall
numbers:
        .word 3, 5, 7, 11
