/* `main` of the programs fhex and fhex-stream, and the functions by which their proved parts call the system. The
 * proved part of fhex is in generated/fhex/, and that of fhex-stream in generated/fhex-stream/.
 *
 * This file is not proved. The proofs assume of each function what its comment says. */
#include <errno.h>
#include <signal.h>
#include <stdbool.h>
#include <stddef.h>
#include <stdint.h>
#include <stdio.h>
#include <stdlib.h>
#include <string.h>
#include <unistd.h>

/* The proved part has System V's calling convention on all systems. Windows has another one. */
#ifdef _WIN32
#include <fcntl.h>
#include <io.h>
#define PROVED __attribute__((sysv_abi))
#else
#include <sys/mman.h>
#define PROVED __attribute__((visibility("hidden")))
/* Whether the program leaves SIGPIPE as it was when it was started. builds.S of each program defines it. */
extern const bool fhex_keeps_sigpipe PROVED;
#endif

/* Runs the proved part. Returns the exit status, which is 0 to 3. */
PROVED int fhex_main_start(void);

static size_t count;
static char **words;

int main(int argc, char **argv) {
#ifdef __x86_64__
    if (!__builtin_cpu_supports("ssse3") || !__builtin_cpu_supports("sse4.1") ||
        !__builtin_cpu_supports("sse4.2") || !__builtin_cpu_supports("popcnt")) {
        fputs("this processor does not support x86-64-v2\n", stderr);
        return 127;
    }
#endif
#ifdef _WIN32
    for (int file = 0; file < 3; file++) _setmode(file, _O_BINARY);
#else
    /* By default a write to a closed pipe ends the process. */
    if (!fhex_keeps_sigpipe) signal(SIGPIPE, SIG_IGN);
#endif
    count = (size_t)argc;
    words = argv;
    return fhex_main_start();
}

/* Copies the word with the index `at` of the command line to `to`, without the zero at its end. Returns its length.
 * If there is no such word, it returns -1. If the word is longer than `room`, it copies `room` bytes and returns -2. */
PROVED ptrdiff_t fhex_arg(size_t at, char *to, size_t room) {
    if (at >= count) return -1;
    size_t length = strlen(words[at]);
    memcpy(to, words[at], length < room ? length : room);
    return length <= room ? (ptrdiff_t)length : -2;
}

/* Reads once, at most `length` bytes. Returns the number of bytes that were read, which is 0 at the end of the file.
 * After a failure it returns -1, and `fhex_errno` has the reason. */
PROVED ptrdiff_t fhex_read(int file, void *to, size_t length) {
    return read(file, to, length);
}

/* Writes once, at most `length` bytes. Returns the number of bytes that were written. After a failure it returns -1,
 * and `fhex_errno` has the reason. */
PROVED ptrdiff_t fhex_write(int file, const void *from, size_t length) {
    return write(file, from, length);
}

/* Returns the reason of the last failure. The proved part distinguishes only two: 4 is EINTR, and 12 is ENOMEM. */
PROVED int fhex_errno(void) { return errno; }

/* Sets the reason of the last failure. */
PROVED void fhex_set_errno(int reason) { errno = reason; }

/* An allocated block. If the allocation failed, `is_there` is false, and `at` is some address that is not null. */
struct block {
    bool is_there;
    void *at;
};

static struct block block_at(void *at) {
    static char nowhere;
    return (struct block){ at != NULL, at != NULL ? at : &nowhere };
}

/* Asks the system for large pages if a block has at least 4 MiB, and returns the block. The system clears each page
 * when it is first used. With small pages this takes longer than to decode the bytes, and with large ones it takes
 * less. The request names all pages of the block, so that the system keeps one mapping for it. Only one mapping can
 * grow, and otherwise `realloc` would copy the bytes. If the system refuses, nothing changes. */
static void *in_large_pages(void *at, size_t size) {
#ifdef MADV_HUGEPAGE
    if (at != NULL && size >= (size_t)4 << 20) {
        uintptr_t page = (uintptr_t)getpagesize(), begin = (uintptr_t)at / page * page;
        madvise((void *)begin, (uintptr_t)at - begin + size, MADV_HUGEPAGE);
    }
#else
    (void)size;
#endif
    return at;
}

/* Allocates a block of `size` bytes, which is less than 2^63. Its address is a multiple of `align`, a divisor of 16. */
PROVED struct block fhex_alloc(size_t size, size_t align) {
    return block_at(in_large_pages(malloc(size > 0 ? size : align), size));
}

/* Replaces the block at `at` by one of `size` bytes, which keeps the first `kept` bytes. If there is no memory, the old
 * block stays as it was. */
PROVED struct block fhex_realloc(void *at, size_t kept, size_t size, size_t align) {
    (void)kept;
    return block_at(in_large_pages(realloc(at, size > 0 ? size : align), size));
}

/* Frees the block at `at`, which is an allocated one. */
PROVED void fhex_dealloc(void *at) { free(at); }

#ifdef _WIN32
/* These do the same as in C, but have the proved part's calling convention. */
PROVED void *fhex_memcpy(void *to, const void *from, size_t n) { return memcpy(to, from, n); }
PROVED void *fhex_memmove(void *to, const void *from, size_t n) { return memmove(to, from, n); }
PROVED void *fhex_memset(void *to, int byte, size_t n) { return memset(to, byte, n); }
#endif
