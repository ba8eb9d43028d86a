        .cfi_sections .debug_frame
        .section .text.start
        .globl _start
_start: .cfi_startproc
        .cfi_undefined ra       # a backtrace ends here
        li   sp, 0x80010000     # the end of 64 KiB of RAM
        call main
        li   a7, 0              # call 0: end
        ecall
ended:  j    ended              # where an ended task stands
        .cfi_endproc
