/* The kernel's Multiboot 1 entry: 32 bits, flat segments, no paging, interrupts off. */

    .set MAGIC, 0x1BADB002
    .set FLAGS, 0

    .section .multiboot, "a"
    .align 4
    .long MAGIC, FLAGS, -(MAGIC + FLAGS)

    .text
    .globl start
start:
    cli
    mov $stack_end, %esp
    lgdt segments
    ljmp $0x08, $1f
1:  mov $0x10, %eax
    mov %eax, %ds
    mov %eax, %es
    mov %eax, %ss
    cld
    call kernel
2:  hlt
    jmp 2b

/* The card's interrupt. */
    .globl on_line
on_line:
    pushal
    cld
    call line_is_up
    popal
    iret

/* A spurious interrupt of the second controller: its line dropped before the processor acknowledged it. */
    .globl on_spurious
on_spurious:
    pushal
    cld
    call end_of_spurious
    popal
    iret

/* Any other interrupt; none is expected. */
    .globl on_other
on_other:
    iret

    .section .rodata
    .align 8
table:
    .quad 0, 0x00CF9A000000FFFF, 0x00CF92000000FFFF
segments:
    .word segments - table - 1
    .long table

    .bss
    .align 16
    .skip 16384
stack_end:

    .section .note.GNU-stack, "", @progbits
