/* Where a loader by the Multiboot specification begins: with 32 bits. It maps the first GB of memory as it
 * is, switches to 64 bits, and calls begin.
 */
    .section .boot, "ax"
    .balign 4
header:
    .long 0x1badb002, 0x00010000, -(0x1badb002 + 0x00010000)
    .long header, load_begin, load_end, bss_end, start

    .code32
    .globl start
start:
    cli
    mov $stack_end, %esp
    mov $level3, %eax
    or $3, %eax
    mov %eax, level4
    mov $level2, %eax
    or $3, %eax
    mov %eax, level3
    xor %ecx, %ecx
fill:
    mov %ecx, %eax
    shl $21, %eax
    or $0x83, %eax /* 2 MB, present, written */
    mov %eax, level2(, %ecx, 8)
    inc %ecx
    cmp $512, %ecx
    jne fill
    mov %cr4, %eax
    or $0x20, %eax /* addresses of 64 bits */
    mov %eax, %cr4
    mov $level4, %eax
    mov %eax, %cr3
    mov $0xc0000080, %ecx
    rdmsr
    or $0x100, %eax /* long mode */
    wrmsr
    mov %cr0, %eax
    or $0x80000000, %eax /* paging */
    mov %eax, %cr0
    lgdt table
    ljmp $8, $start64

    .code64
start64:
    mov $16, %eax
    mov %eax, %ds
    mov %eax, %es
    mov %eax, %ss
    call begin

    .balign 8
segments:
    .quad 0, 0x00af9a000000ffff, 0x00cf92000000ffff
table:
    .word table - segments - 1
    .long segments

    .section .bss
    .balign 4096
level4:
    .skip 4096
level3:
    .skip 4096
level2:
    .skip 4096
    .skip 8192
stack_end:

    .section .note.GNU-stack, "", @progbits
