/* Takes an x86-64 processor from its reset to `bare` in bare.c, without an operating system. This code is in the last
 * 64 KiB of a ROM of 512 KiB that ends at 4 GiB, as bare.ld says. It copies the program, which comes before it, to
 * 1 MiB. SAVED is the operand of `xsetbv`: the set of registers that a system would save. */
#define SELECTOR_32 8
#define SELECTOR_DATA 16
#define SELECTOR_64 24
#define TABLES 0x70000
#define PRESENT_AND_WRITABLE 3
#define LARGE 0x80
#define STACK 0x400000

    .section .start, "ax"
    .code16
real:
    cli
    /* With the code segment of the reset, and addresses of 32 bits. */
    .byte 0x66, 0x2e
    lgdt described - real
    movl %cr0, %eax
    orb $1, %al
    movl %eax, %cr0
    ljmpl $SELECTOR_32, $protected

    .code32
protected:
    movw $SELECTOR_DATA, %ax
    movw %ax, %ds
    movw %ax, %es
    movw %ax, %ss
    cld
    /* Copy the program, and the variables that begin as zero. */
    movl $program_rom, %esi
    movl $program, %edi
    movl $program_size, %ecx
    rep movsb
    /* Page tables: four with 512 pages of 2 MiB each. Each page has the same virtual and physical address. */
    movl $TABLES, %edi
    xorl %eax, %eax
    movl $0x6000 / 4, %ecx
    rep stosl
    movl $TABLES + 0x1000 + PRESENT_AND_WRITABLE, TABLES
    movl $TABLES + 0x2000 + PRESENT_AND_WRITABLE, TABLES + 0x1000
    movl $TABLES + 0x3000 + PRESENT_AND_WRITABLE, TABLES + 0x1008
    movl $TABLES + 0x4000 + PRESENT_AND_WRITABLE, TABLES + 0x1010
    movl $TABLES + 0x5000 + PRESENT_AND_WRITABLE, TABLES + 0x1018
    movl $TABLES + 0x2000, %edi
    movl $LARGE + PRESENT_AND_WRITABLE, %eax
    movl $4 * 512, %ecx
1:  movl %eax, (%edi)
    addl $0x200000, %eax
    addl $8, %edi
    decl %ecx
    jnz 1b
    movl $TABLES, %eax
    movl %eax, %cr3
    /* Switch on physical address extension, SSE with its exceptions, and xsetbv. */
    movl $0x40620, %eax
    movl %eax, %cr4
    movl $0xc0000080, %ecx
    rdmsr
    orl $0x100, %eax
    wrmsr
    /* Switch on paging and caches, and switch off the emulation of SSE. */
    movl %cr0, %eax
    andl $0x9ffffffb, %eax
    orl $0x80000002, %eax
    movl %eax, %cr0
    ljmpl $SELECTOR_64, $long

    .code64
long:
    xorl %ecx, %ecx
    xorl %edx, %edx
    movl $SAVED, %eax
    xsetbv
    movl $STACK, %esp
    movl $bare, %eax
    call *%rax
2:  hlt
    jmp 2b

    .balign 8
described_segments:
    .quad 0, 0x00cf9b000000ffff, 0x00cf93000000ffff, 0x00af9b000000ffff
described:
    .word . - described_segments - 1
    .long described_segments

    /* A processor begins here after its reset. */
    .org 0xfff0
    .code16
    jmp real
    .org 0x10000
