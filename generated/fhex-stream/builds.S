/* The program for the processor, behind the macros of the format of its object files. */
#ifdef __ELF__
#include "../elf.inc"
#else
#include "../coff.inc"
/* Where the C library has another convention, fhex.c calls it. */
#define memcpy fhex_memcpy
#define memmove fhex_memmove
#define memset fhex_memset
#endif

#ifdef __x86_64__
#include "x86-64-v2.s"
#else
#include "aarch64.s"
#endif

/* A write to a closed pipe ends the program silently, as it ends `xxd` and `cat`. fhex.c reads this. */
#ifdef __ELF__
	.section .rodata,"a",%progbits
	.globl fhex_keeps_sigpipe
	.hidden fhex_keeps_sigpipe
fhex_keeps_sigpipe:
	.byte 1
#endif
