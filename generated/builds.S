/* Includes the macros for the format of the object files, and then the builds for the processor, if there are any. */
#include "../crates/faster_hex_c/assembly.h"

/* For ELF: no stack is executed, every place where an indirect branch may come out is marked, and no return address
 * is changed. The note holds for a whole object. It is not in elf.inc, because rustc puts that file into objects with
 * other code. */
#ifdef __ELF__
	.section .note.GNU-stack,"",%progbits
#if defined __LP64__ && (defined __x86_64__ || defined __aarch64__)
	.section .note.gnu.property,"a"
	.p2align 3
	.long 4,16,5
	.asciz "GNU"
#ifdef __x86_64__
	.long 0xc0000002,4,3,0
#else
	.long 0xc0000000,4,1,0
#endif
#endif
#endif

#if defined FASTER_HEX_X86_64 || defined FASTER_HEX_AARCH64
#ifdef __ELF__
#include "elf.inc"
#elif defined __MACH__
#include "macho.inc"
#else
#include "coff.inc"
#endif

/* The calls of the C library have other names than those of our Rust crate, and other ones again if they were not
 * proved. A program may have a copy of each, and one of them may have been patched. Then each copy runs its own code. */
	.purgem hex_export
.macro hex_export name
#ifdef FASTER_HEX_UNPROVED
	hex_entry \name,\name\()_of_c_unproved
#else
	hex_entry \name,\name\()_of_c
#endif
.endm

#ifdef FASTER_HEX_X86_64
#include "x86-64.s"
#include "x86-64-v2.s"
#include "x86-64-v3.s"
#include "x86-64-v4.s"
#include "x86-64-vbmi.s"
#else
#include "aarch64.s"
#endif
#endif
