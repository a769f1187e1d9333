/* Given by --defsym: rom, rom_size, ram, ram_size. */
ENTRY(_start)
SECTIONS {
    . = rom;
    .vectors : { KEEP(*(.vectors)) }
    .text : { *(.text*) *(.rodata*) KEEP(*(.init)) KEEP(*(.fini)) }
    .ARM.exidx : { __exidx_start = .; *(.ARM.ex*) __exidx_end = .; }
    .init_array : {
        __init_array_start = .;
        *(.init_array*)
        __init_array_end = .;
        __fini_array_start = .;
        *(.fini_array*)
        __fini_array_end = .;
    }
    .eh_frame : { *(.eh_frame*) }
    rom_end = .;
    . = ram;
    .data : { *(.data*) }
    .bss : { __bss_start__ = .; *(.bss*) *(COMMON) __bss_end__ = .; }
    end = .;
    __end__ = .;
    PROVIDE(__HeapLimit = ram + ram_size - 0x1800);
    PROVIDE(__stack = ram + ram_size);
    PROVIDE(__StackTop = ram + ram_size);
}
ASSERT(rom_end <= rom + rom_size, "too much code")
