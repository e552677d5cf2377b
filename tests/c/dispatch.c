/* Tests which build dispatch.c chooses for each processor, on any machine. It gives dispatch.c register values that
 * `cpuid` and `xgetbv` could return. Bits are numbered as in the manuals of processors. Link it with the archive, of
 * which it uses only the builds. Prints `N passed, M failed`.
 * Usage: dispatch */
#include <stdio.h>
#include <string.h>

#include "../../crates/faster_hex_c/dispatch.c"

static int passed, failed;

static void is_level(const char *what, unsigned bit, struct processor it, unsigned wanted) {
    unsigned level = level_of(it);
    if (level == wanted) {
        passed++;
    } else {
        printf("failed: %s %u: level %u, and not %u\n", what, bit, level, wanted);
        failed++;
    }
}

/* A value that a processor reports: its place in the struct, and the bits of it that each level needs. */
struct wants {
    const char *name;
    size_t word;
    unsigned level_2, level_3, level_4, level_5;
};
#define BIT(n) (1u << (n))
#define WORD(name) #name, offsetof(struct processor, name)
static const struct wants WANTS[] = {
    /* SSE3, SSSE3, CMPXCHG16B, SSE4.1, SSE4.2, POPCNT; FMA, MOVBE, OSXSAVE, AVX, F16C */
    { WORD(basic), BIT(0) | BIT(9) | BIT(13) | BIT(19) | BIT(20) | BIT(23),
      BIT(12) | BIT(22) | BIT(27) | BIT(28) | BIT(29), 0, 0 },
    /* BMI, AVX2, BMI2; AVX512F, AVX512DQ, AVX512CD, AVX512BW, AVX512VL */
    { WORD(wide), 0, BIT(3) | BIT(5) | BIT(8), BIT(16) | BIT(17) | BIT(28) | BIT(30) | BIT(31), 0 },
    { WORD(permutes), 0, 0, 0, BIT(1) },            /* AVX512_VBMI */
    { WORD(extended), BIT(0), BIT(5), 0, 0 },       /* LAHF; LZCNT */
    /* The registers of SSE and those of AVX; masks, the upper halves of 16 vectors, and 16 more vectors. */
    { WORD(saved), 0, BIT(1) | BIT(2), BIT(5) | BIT(6) | BIT(7), 0 },
};
enum { WORDS = sizeof WANTS / sizeof *WANTS };

static unsigned *word_of(struct processor *it, const struct wants *wants) {
    return (unsigned *)(void *)((char *)it + wants->word);
}

/* A processor that has exactly what the levels up to this one need. */
static struct processor exactly(unsigned level) {
    struct processor it = { .highest = 7, .highest_extended = 0x80000001 };
    for (int at = 0; at < WORDS; at++) {
        const struct wants *wants = &WANTS[at];
        *word_of(&it, wants) = wants->level_2 | (level >= 3 ? wants->level_3 : 0) | (level >= 4 ? wants->level_4 : 0)
                               | (level >= 5 ? wants->level_5 : 0);
    }
    return it;
}

static void by_bits(void) {
    const struct processor all = { ~0u, ~0u, ~0u, ~0u, ~0u, ~0u, ~0u }, none = { 0 };
    is_level("all bits", 0, all, 5);
    is_level("no bit", 0, none, 1);
    for (unsigned one = 2; one <= 5; one++) is_level("exactly level", one, exactly(one), one);
    for (int at = 0; at < WORDS; at++) {
        for (unsigned bit = 0; bit < 32; bit++) {
            const struct wants *wants = &WANTS[at];
            struct processor it = all, narrow = exactly(5);
            unsigned wanted = wants->level_2 & BIT(bit) ? 1
                              : wants->level_3 & BIT(bit) ? 2
                              : wants->level_4 & BIT(bit) ? 3
                              : wants->level_5 & BIT(bit) ? 4 : 5;
            *word_of(&it, wants) &= ~BIT(bit);
            *word_of(&narrow, wants) &= ~BIT(bit);
            is_level(wants->name, bit, it, wanted);
            is_level(wants->name, bit, narrow, wanted);
        }
    }
}

/* Leaves of cpuid above the highest one must be ignored, whatever their values are. */
static void by_leaves(void) {
    struct processor it = exactly(5);
    for (it.highest = 0; it.highest < 9; it.highest++) {
        is_level("highest leaf", it.highest, it, it.highest >= 7 ? 5 : it.highest >= 1 ? 2 : 1);
    }
    it = exactly(5);
    it.highest_extended = 0x80000000;
    is_level("highest leaf", it.highest_extended, it, 1);
    it.highest_extended = 0; /* as on a processor without such leaves */
    is_level("highest leaf", it.highest_extended, it, 1);
}

/* The processor supports all levels, but the system saves only some registers. Bits 0 to 2 are for the registers of the
 * x87, SSE and AVX, and bits 5 to 7 for those of AVX-512. */
static void by_system(void) {
    static const unsigned char SAVED[][2] = { { 0x00, 2 }, { 0x03, 2 }, { 0x07, 3 }, { 0x27, 3 }, { 0x67, 3 },
                                              { 0xe3, 2 }, { 0xe7, 5 }, { 0xff, 5 } };
    for (unsigned at = 0; at < sizeof SAVED / sizeof *SAVED; at++) {
        struct processor it = exactly(5);
        it.saved = SAVED[at][0];
        is_level("saved registers", it.saved, it, SAVED[at][1]);
    }
}

/* The values of this machine must choose the level that the constructor has chosen. Whether that is a level for AVX2 or
 * AVX-512 must be what the compiler's own library says. */
static void here(void) {
    bool has_avx2 = __builtin_cpu_supports("avx2"), has_avx512 = __builtin_cpu_supports("avx512bw");
    bool has_vbmi = __builtin_cpu_supports("avx512vbmi");
    is_level("the constructor's level", level, processor(), level);
    is_level("the compiler's level", level, processor(),
             has_vbmi ? 5 : has_avx512 ? 4 : has_avx2 ? 3 : level < 3 ? level : 1);
}

/* The name of the build that calls use at each level. */
static void by_names(void) {
    static const struct { unsigned char level; const char *name; } NAMES[] = {
        { 0, "x86-64" }, { 1, "x86-64" }, { 2, "x86-64-v2" }, { 3, "x86-64-v3" }, { 4, "x86-64-v4" },
        { 5, "x86-64-vbmi" },
    };
    unsigned char kept = level;
    for (unsigned at = 0; at < sizeof NAMES / sizeof *NAMES; at++) {
        level = NAMES[at].level;
        bool is_named = strcmp(faster_hex_build(), NAMES[at].name) == 0;
        if (!is_named) printf("failed: level %u is named %s\n", NAMES[at].level, faster_hex_build());
        *(is_named ? &passed : &failed) += 1;
    }
    level = kept;
}

int main(void) {
    by_bits();
    by_names();
    by_leaves();
    by_system();
    here();
    printf("%d passed, %d failed\n", passed, failed);
    return failed != 0;
}
