ENTRY(start)
SECTIONS {
    . = 0x100000;
    load_begin = .;
    .text : { *(.boot) *(.text*) *(.rodata*) *(.got*) *(.data*) }
    load_end = .;
    .bss : { *(.bss*) *(COMMON) }
    bss_end = .;
    /DISCARD/ : { *(.eh_frame*) *(.note*) *(.comment*) }
}
