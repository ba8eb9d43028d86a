ENTRY(_start)
MEMORY { ram (rwx) : ORIGIN = 0x80000000, LENGTH = 64K }
SECTIONS {
    .image : {
        *(.text.start)
        *(.text .text.*) *(.rodata .rodata.* .srodata .srodata.*)
        *(.data .data.* .sdata .sdata.*)
        *(.bss .bss.* .sbss .sbss.* COMMON)
        . = ALIGN(4);
    } > ram
    /DISCARD/ : { *(.eh_frame .eh_frame.*) }
}
