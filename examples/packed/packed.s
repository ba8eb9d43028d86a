# A message as it came over a wire, packed: a kind of 1 byte, a stamp of 4 bytes, a reading of 2 bytes. The stamp lies at an
# address that is no multiple of 4, and the reading at an odd one.
        .globl _start
_start: la   a0, message
        lbu  t0, 0(a0)          # the kind
        lw   t1, 1(a0)          # the stamp, low byte first
        lh   t2, 5(a0)          # the reading, signed
        slli t2, t2, 1
        sh   t2, 5(a0)          # the answer: the message with the reading doubled
        li   a1, 7
        li   a7, 1              # call 1: write the 7 bytes from a0 on
        ecall
        li   a7, 0              # call 0: the task ends
        ecall
message:
        .byte 3
        .byte 0x45, 0x23, 0x01, 0x00
        .byte 0xd8, 0xff
