/* A ROM of 512 KiB that ends at 4 GiB. It has a program, which runs at 1 MiB, and in its last 64 KiB the code of
 * bare.S. */
SECTIONS {
    .program 0x100000 : AT(0xfff80000) {
        program = .;
        *(.text .text.* .rodata .rodata.* .data .data.*)
        /* Variables that begin as zero get zeros from the ROM. */
        *(.bss .bss.* COMMON)
        program_end = .;
    }
    .start 0xffff0000 : AT(0xffff0000) { *(.start) }
    program_rom = LOADADDR(.program);
    program_size = program_end - program;
    ASSERT(program_size <= 0x70000, "the program is too large")
    /DISCARD/ : { *(.note* .comment .eh_frame* .init_array*) }
}
