/* Tests the memory that fhex.c gives to the proved part: blocks of no bytes, and the size from which large pages are
 * requested. Prints `N passed, M failed`.
 * Usage: blocks */
#define madvise counted
#define main main_of_fhex
#include "../../crates/fhex/fhex.c"
#undef main

const bool fhex_keeps_sigpipe = false;

static int requests, passed, failed;

int fhex_main_start(void) {
    return 0;
}

int counted(void *at, size_t size, int advice) {
    (void)at;
    (void)size;
    (void)advice;
    return requests++;
}

static void is_right(bool holds, const char *what) {
    if (!holds) printf("failed: %s\n", what);
    *(holds ? &passed : &failed) += 1;
}

/* A block of no bytes is there, can grow and shrink, and is freed like any other. */
static void of_no_bytes(void) {
    struct block block = fhex_alloc(0, 8);
    is_right(block.is_there, "a new block of no bytes");
    block = fhex_realloc(block.at, 0, 64, 8);
    is_right(block.is_there, "a block that grows");
    block = fhex_realloc(block.at, 0, 0, 8);
    is_right(block.is_there, "a block that shrinks to no bytes");
    if (block.is_there) fhex_dealloc(block.at);
}

static void of_large_pages(void) {
    const size_t least = (size_t)4 << 20;
    struct block block = fhex_alloc(least - 1, 1);
    is_right(requests == 0, "a block below 4 MiB");
    block = fhex_realloc(block.at, 1, least, 1);
    is_right(requests == 1, "a block that grows to 4 MiB");
    fhex_dealloc(block.at);
    block = fhex_alloc(least, 1);
    is_right(requests == 2, "a new block of 4 MiB");
    fhex_dealloc(block.at);
}

int main(void) {
    of_no_bytes();
    of_large_pages();
    printf("%d passed, %d failed\n", passed, failed);
    return failed != 0;
}
