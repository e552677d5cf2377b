/* Compares the calls of faster_hex.h with models of a few lines: between guarded pages at random lengths in random
 * groups, at all lengths from 0 to 300 and at some greater lengths, with NULL, with sources that are too long for any
 * text, with numbers above 2^32, with adjacent source and destination, at all alignments, and in threads.
 * `tests/test_library.py` builds and runs it. Prints a line for each failure, and `N passed, M failed` at the end.
 * Usage: library [threads]. The environment variable SEED is the seed for random numbers. */
#include <pthread.h>
#include <stdio.h>
#include <stdlib.h>
#include <string.h>
#include <sys/mman.h>
#include <time.h>
#include <unistd.h>

#include "assembly.h"
#include "digits.h"
#include "faster_hex.h"

enum { LONGEST = 300, OLD = 0xa5, THREADS = 8, TURNS = 200, DRAWN = 32000, LONGEST_DRAWN = 2000, WIDEST_DRAWN = 64 };

/* The header's macros give constants, also for sums, and can be used in sums. */
#define IS(expression) __extension__ _Static_assert(expression, #expression)
IS(FASTER_HEX_ENCODED_LEN(0) == 0);
IS(7 % FASTER_HEX_ENCODED_LEN(1 + 1) == 3);
IS(FASTER_HEX_DECODED_LEN(3) == 1);
IS(8 / FASTER_HEX_DECODED_LEN(3 + 1) == 4);
IS(FASTER_HEX_GROUPED_LEN(0, 1) == 0 && FASTER_HEX_GROUPED_LEN(1, 1) == 2);
IS(7 % FASTER_HEX_GROUPED_LEN(1 + 1, 1) == 2);
IS(FASTER_HEX_GROUPED_LEN(4, 1 + 1) == 9 && FASTER_HEX_GROUPED_LEN(5, 2) == 12);

static const char *const NAMES[] = {
    "check", "check_with_case", "first_invalid", "encode", "decode", "decode_with_case", "encode_grouped",
    "decode_grouped", "decode_spaced",
};
enum call {
    CHECK, CHECK_WITH_CASE, FIRST_INVALID, ENCODE, DECODE, DECODE_WITH_CASE, ENCODE_GROUPED, DECODE_GROUPED,
    DECODE_SPACED, CALLS
};

struct job {
    enum call call;
    const uint8_t *src;
    size_t len;
    uint8_t *dst;
    size_t room;
    bool upper;
    uint8_t policy;
    size_t every;
    uint8_t sep;
};

static unsigned long seed;

static struct faster_hex_answer told(size_t number, uint8_t status, uint8_t byte) {
    return (struct faster_hex_answer){ number, status, byte };
}

static struct faster_hex_answer run(const struct job *it) {
    switch (it->call) {
    case CHECK: return told(faster_hex_check(it->src, it->len), 0, 0);
    case CHECK_WITH_CASE: return told(faster_hex_check_with_case(it->src, it->len, it->policy), 0, 0);
    case FIRST_INVALID: return faster_hex_first_invalid(it->src, it->len, it->policy);
    case ENCODE: return faster_hex_encode(it->src, it->len, it->dst, it->room, it->upper);
    case DECODE: return faster_hex_decode(it->src, it->len, it->dst, it->room);
    case DECODE_WITH_CASE:
        return faster_hex_decode_with_case(it->src, it->len, it->dst, it->room, it->policy);
    case ENCODE_GROUPED:
        return faster_hex_encode_grouped(it->src, it->len, it->dst, it->room, it->upper, it->every, it->sep);
    case DECODE_SPACED:
        return faster_hex_decode_spaced(it->src, it->len, it->dst, it->room, it->policy);
    default:
        return faster_hex_decode_grouped(it->src, it->len, it->dst, it->room, it->policy, it->every, it->sep);
    }
}

static bool is_group(size_t every, uint8_t sep) {
    return every != 0 && sep < 0x80 && value(FASTER_HEX_EITHER_CASE, sep) < 0;
}

/* The models do not consider overflow, because the lengths of these tests are small. */
static struct faster_hex_answer model_encode(const struct job *it, size_t every) {
    const char *digits = it->upper ? "0123456789ABCDEF" : "0123456789abcdef";
    size_t required = 2 * it->len + (it->len == 0 ? 0 : (it->len - 1) / every), at = 0;
    if (it->room < required) return told(required, FASTER_HEX_OUTPUT_TOO_SMALL, 0);
    for (size_t i = 0; i < it->len; i++) {
        if (i > 0 && i % every == 0) it->dst[at++] = it->sep;
        it->dst[at++] = (uint8_t)digits[it->src[i] / 16];
        it->dst[at++] = (uint8_t)digits[it->src[i] % 16];
    }
    return told(required, FASTER_HEX_DONE, 0);
}

/* Whether a separator is at this index of a text in groups of 2 * every digits. */
static bool separates(size_t at, size_t every) {
    return at % (2 * every + 1) == 2 * every;
}

static struct faster_hex_answer model_search(const struct job *it, uint8_t policy, size_t every) {
    for (size_t i = 0; i < it->len; i++) {
        bool wrong = separates(i, every) ? it->src[i] != it->sep : value(policy, it->src[i]) < 0;
        if (wrong) return told(i, FASTER_HEX_INVALID_CHAR, it->src[i]);
    }
    return told(0, FASTER_HEX_DONE, 0);
}

static struct faster_hex_answer model_decode(const struct job *it, uint8_t policy, size_t every,
                                             uint8_t bad_length) {
    size_t digits = 0, at = 0;
    for (size_t i = 0; i < it->len; i++) digits += !separates(i, every);
    if (digits % 2 == 1 || (it->len > 0 && separates(it->len - 1, every))) return told(0, bad_length, 0);
    if (it->room < digits / 2) return told(digits / 2, FASTER_HEX_OUTPUT_TOO_SMALL, 0);
    struct faster_hex_answer answer = model_search(it, policy, every);
    if (answer.status != FASTER_HEX_DONE) return answer;
    for (size_t i = 0; i < it->len; i++) {
        int digit = value(policy, it->src[i]);
        if (separates(i, every)) continue;
        it->dst[at / 2] = (uint8_t)(at % 2 ? it->dst[at / 2] * 16 + digit : digit);
        at++;
    }
    return told(digits / 2, FASTER_HEX_DONE, 0);
}

static const char SPACE[5] = { ' ', '\t', '\n', '\f', '\r' };

static bool is_space(uint8_t byte) {
    return memchr(SPACE, byte, sizeof SPACE) != NULL;
}

static struct faster_hex_answer model_spaced(const struct job *it) {
    size_t digits = 0, at = 0;
    for (size_t i = 0; i < it->len; i++) digits += !is_space(it->src[i]);
    if (digits % 2 == 1) return told(0, FASTER_HEX_ODD_LENGTH, 0);
    if (it->room < digits / 2) return told(digits / 2, FASTER_HEX_OUTPUT_TOO_SMALL, 0);
    for (size_t i = 0; i < it->len; i++) {
        bool wrong = !is_space(it->src[i]) && value(it->policy, it->src[i]) < 0;
        if (wrong) return told(i, FASTER_HEX_INVALID_CHAR, it->src[i]);
    }
    for (size_t i = 0; i < it->len; i++) {
        int digit = value(it->policy, it->src[i]);
        if (is_space(it->src[i])) continue;
        it->dst[at / 2] = (uint8_t)(at % 2 ? it->dst[at / 2] * 16 + digit : digit);
        at++;
    }
    return told(digits / 2, FASTER_HEX_DONE, 0);
}

static struct faster_hex_answer model(const struct job *it) {
    const size_t whole = 1 << 20; /* longer than any text here, so there is no separator */
    switch (it->call) {
    case CHECK: return told(model_search(it, FASTER_HEX_EITHER_CASE, whole).status == FASTER_HEX_DONE, 0, 0);
    case CHECK_WITH_CASE:
        return told(it->policy <= FASTER_HEX_UPPERCASE &&
                    model_search(it, it->policy, whole).status == FASTER_HEX_DONE, 0, 0);
    case ENCODE: return model_encode(it, whole);
    case DECODE: return model_decode(it, FASTER_HEX_EITHER_CASE, whole, FASTER_HEX_ODD_LENGTH);
    case ENCODE_GROUPED:
        if (!is_group(it->every, it->sep)) return told(0, FASTER_HEX_NOT_A_GROUP, 0);
        return model_encode(it, it->every);
    default: break;
    }
    if (it->policy > FASTER_HEX_UPPERCASE) return told(0, FASTER_HEX_UNKNOWN_POLICY, 0);
    if (it->call == FIRST_INVALID) return model_search(it, it->policy, whole);
    if (it->call == DECODE_SPACED) return model_spaced(it);
    if (it->call == DECODE_WITH_CASE) return model_decode(it, it->policy, whole, FASTER_HEX_ODD_LENGTH);
    if (!is_group(it->every, it->sep)) return told(0, FASTER_HEX_NOT_A_GROUP, 0);
    return model_decode(it, it->policy, it->every, FASTER_HEX_BAD_LENGTH);
}

/* Some memory, with room for two copies of it. */
struct memory {
    uint8_t *start;
    size_t size;
    uint8_t *kept;
};

/* Whether the call gives the answer of its model, and leaves the memory around its destination as the model
 * does. The source may be in this memory too. */
static bool agrees(const struct job *it, struct memory around) {
    uint8_t *before = around.kept, *after = around.kept + around.size;
    memcpy(before, around.start, around.size);
    struct faster_hex_answer answer = run(it);
    memcpy(after, around.start, around.size);
    memcpy(around.start, before, around.size);
    struct faster_hex_answer wanted = model(it);
    bool same = answer.number == wanted.number && answer.status == wanted.status &&
                answer.byte == wanted.byte && memcmp(around.start, after, around.size) == 0;
    memcpy(around.start, before, around.size);
    if (!same) {
        printf("failed: %s of %lu bytes into %lu in groups of %lu: status %u, number %lu, and not %u, %lu\n",
               NAMES[it->call], (unsigned long)it->len, (unsigned long)it->room, (unsigned long)it->every,
               answer.status, (unsigned long)answer.number, wanted.status, (unsigned long)wanted.number);
        fflush(stdout);
    }
    return same;
}

static unsigned long passed, failed;

static void count(bool holds) {
    if (holds) passed++;
    else failed++;
}

/* Whether all lines of `every` digits end alike. */
static bool is_regular(size_t every) {
    return every % 4 == 0;
}

/* Whether white space is at this index of a text in lines of `every` digits. Unless they all end alike, each third line
 * ends with two bytes of it. */
static bool spaces(size_t at, size_t every) {
    size_t line = 3 * every + 3 + !is_regular(every), in_line = at % line;
    return in_line == line - 1 || (in_line % (every + 1) == every);
}

/* Writes a text for a call to read: bytes, digits, or digits in groups or lines. In one of four texts, one byte is no
 * digit or a letter of the wrong case. `turn` makes different texts of the same length. */
static void fill(const struct job *it, uint8_t *text, unsigned turn) {
    static const char *const letters[] = { "0123456789aBcDeF", "0123456789abcdef", "0123456789ABCDEF" };
    for (size_t i = 0; i < it->len; i++) {
        unsigned mixed = (unsigned)(i * 73 + i / 7 + turn * 31);
        if (it->call == ENCODE || it->call == ENCODE_GROUPED) text[i] = (uint8_t)mixed;
        else if (it->call == DECODE_SPACED && spaces(i, it->every))
            text[i] = (uint8_t)SPACE[(is_regular(it->every) ? turn : mixed) % 5];
        else if (it->call == DECODE_GROUPED && it->every != 0 && separates(i, it->every)) text[i] = it->sep;
        else text[i] = (uint8_t)letters[turn % 3][mixed % 16];
    }
    uint8_t wrong = turn % 8 == 3 ? (uint8_t)"zAa"[turn % 3] : (uint8_t)(turn * 37);
    if (it->len > 0 && turn % 4 == 3) text[(turn * 7919u) % it->len] = wrong;
}

/* The length of the destination that a call needs. */
static size_t takes(const struct job *it) {
    if (it->call == DECODE_SPACED) {
        size_t digits = 0;
        for (size_t i = 0; i < it->len; i++) digits += !spaces(i, it->every);
        return digits / 2;
    }
    if (it->call == ENCODE) return FASTER_HEX_ENCODED_LEN(it->len);
    if (it->call == ENCODE_GROUPED && it->every != 0) return FASTER_HEX_GROUPED_LEN(it->len, it->every);
    return FASTER_HEX_DECODED_LEN(it->len);
}

/* The parameters of a turn, in groups of this many bytes. Turns have every policy, valid and invalid separators, and
 * destinations of the right length, of a greater one and of a smaller one. */
static struct job job_in_groups(enum call call, size_t len, unsigned turn, size_t every) {
    static const char separators[] = { ':', '-', ' ', '\n', ':', 'a', '.' };
    struct job it = { call, NULL, len, NULL, 0, turn % 2 == 1, (uint8_t)(turn % 7 == 6 ? 3 : turn % 3), 0, 0 };
    it.every = every;
    it.sep = turn % 29 == 28 ? 0x80 : (uint8_t)separators[turn % 7];
    it.room = takes(&it);
    if (turn % 5 == 3) it.room += 7;
    if (turn % 5 == 4 && it.room > 0) it.room--;
    return it;
}

/* job_in_groups, with valid and invalid groups. */
static struct job job_of(enum call call, size_t len, unsigned turn) {
    static const size_t pieces[] = { 1, 2, 3, 4, 16, 17, LONGEST, 0 };
    return job_in_groups(call, len, turn, pieces[turn % 8]);
}

/* Fills the source, and returns whether the call agrees with its model for this source and destination. */
static bool tries(struct job it, uint8_t *src, uint8_t *dst, unsigned turn, struct memory around) {
    it.src = src;
    it.dst = dst;
    fill(&it, src, turn);
    return agrees(&it, around);
}

/* Pages for so many bytes, between two pages that can't be read or written. */
static struct memory guarded(size_t bytes) {
    size_t page = (size_t)sysconf(_SC_PAGESIZE), size = (bytes + page - 1) / page * page;
    uint8_t *all = mmap(NULL, size + 2 * page, PROT_NONE, MAP_PRIVATE | MAP_ANONYMOUS, -1, 0);
    struct memory memory = { all + page, size, malloc(2 * size) };
    if (all == MAP_FAILED || memory.kept == NULL || mprotect(memory.start, size, PROT_READ | PROT_WRITE) != 0) {
        perror("no guarded pages");
        exit(2);
    }
    memset(memory.start, OLD, size);
    return memory;
}

/* Repeats a call that must report an error, with a destination that can't be written. If the call stores anything,
 * even if it restores it afterwards, the program ends. */
static void refuses_unwritten(const struct job *it, struct memory to) {
    if (model(it).status == FASTER_HEX_DONE) return;
    mprotect(to.start, to.size, PROT_READ);
    run(it);
    mprotect(to.start, to.size, PROT_READ | PROT_WRITE);
}

/* Source and destination are at the front or at the end of guarded pages. The source can't be written while the
 * call runs. The destination can't be written if the call must report an error. */
static bool is_guarded(struct job it, unsigned turn, struct memory from, struct memory to) {
    uint8_t *src = turn & 1 ? from.start + from.size - it.len : from.start;
    it.src = src;
    it.dst = turn & 2 ? to.start + to.size - it.room : to.start;
    fill(&it, src, turn);
    mprotect(from.start, from.size, PROT_READ);
    bool holds = agrees(&it, to);
    refuses_unwritten(&it, to);
    mprotect(from.start, from.size, PROT_READ | PROT_WRITE);
    return holds;
}

static void at_length(size_t len, unsigned turns, struct memory from, struct memory to) {
    bool holds = true;
    for (unsigned at = 0; at < CALLS * turns; at++) {
        unsigned turn = at % turns;
        holds = is_guarded(job_of((enum call)(at / turns), len, turn), turn, from, to) && holds;
    }
    count(holds);
}

static unsigned drawn(void) {
    static uint64_t state;
    if (state == 0) state = seed;
    state = state * 6364136223846793005u + 1442695040888963407u;
    return (unsigned)(state >> 33);
}

/* Random lengths and groups come first, because no list of lengths and groups has each pair of them. */
static void at_drawn_lengths(void) {
    struct memory from = guarded(LONGEST_DRAWN), to = guarded(3 * LONGEST_DRAWN + 7);
    bool holds = true;
    for (unsigned at = 0; at < DRAWN; at++) {
        size_t len = drawn() % (LONGEST_DRAWN >> drawn() % 8), every = 1 + drawn() % WIDEST_DRAWN;
        unsigned turn = drawn() % 4096;
        holds = is_guarded(job_in_groups((enum call)(at % CALLS), len, turn, every), turn, from, to) && holds;
    }
    count(holds);
    free(from.kept);
    free(to.kept);
}

/* The greatest length is one that a text in groups of 1, 2, 3, 4, 17 or 300 bytes can have. */
static void at_long_lengths(void) {
    struct memory from = guarded(70004), to = guarded(3 * 70004 + 7);
    at_length(4097, 12, from, to);
    /* Some builds decode 256 digits in each turn of a loop, and then 128 that are left. */
    at_length(4736, 12, from, to);
    at_length(70004, 12, from, to);
    free(from.kept);
    free(to.kept);
}

/* Each kind of white space at each place of a text of each length. */
static void with_space(struct memory to) {
    for (size_t len = 0; len <= LONGEST; len++) {
        bool holds = true;
        uint8_t text[LONGEST + 1];
        struct job it = { DECODE_SPACED, text, len, to.start, len / 2, false, 0, LONGEST + 1, 0 };
        for (size_t at = 0; at <= len; at++) {
            fill(&it, text + 1, 0);
            memmove(text, text + 1, at);
            it.len = len + 1;
            for (size_t i = 0; i < sizeof SPACE; i++) {
                text[at] = (uint8_t)SPACE[i];
                holds = agrees(&it, to) && holds;
            }
            it.len = len;
        }
        count(holds);
    }
}

/* NULL with the length 0, as the source, as the destination, and as both. */
static void with_null(struct memory to) {
    for (unsigned call = 0; call < CALLS; call++) {
        bool holds = true;
        for (unsigned turn = 0; turn < 60; turn++) {
            struct job it = job_of((enum call)call, 0, turn);
            it.dst = turn % 2 ? to.start : NULL;
            it.room = turn % 2 ? 5 : 0;
            holds = agrees(&it, to) && holds;
            it.src = (const uint8_t *)"00";
            it.len = 2;
            it.dst = NULL;
            it.room = 0;
            holds = agrees(&it, to) && holds;
        }
        count(holds);
    }
}

static bool is_told(struct faster_hex_answer answer, size_t number, uint8_t status) {
    return answer.number == number && answer.status == status && answer.byte == 0;
}

/* Sources for which the number of digits does not fit in size_t, and the longest one for which it does. None of them
 * is read. */
static void too_long(struct memory to) {
    const size_t lengths[] = { SIZE_MAX / 2 + 1, SIZE_MAX / 2 + 2, SIZE_MAX - 1, SIZE_MAX };
    for (unsigned i = 0; i < 16; i++) {
        size_t len = lengths[i / 4];
        bool upper = i % 2;
        uint8_t *dst = i % 4 < 2 ? NULL : to.start;
        size_t room = dst ? to.size : 0;
        count(is_told(faster_hex_encode(to.start, len, dst, room, upper), 0, FASTER_HEX_OVERFLOW));
        count(is_told(faster_hex_encode_grouped(to.start, len, dst, room, upper, 1 + i, ':'), 0,
                      FASTER_HEX_OVERFLOW));
    }
    count(is_told(faster_hex_encode(to.start, SIZE_MAX / 2, NULL, 0, false), SIZE_MAX - 1,
                  FASTER_HEX_OUTPUT_TOO_SMALL));
    count(is_told(faster_hex_encode_grouped(to.start, SIZE_MAX / 2, NULL, 0, false, 1, ':'), 0,
                  FASTER_HEX_OVERFLOW));
}

#if SIZE_MAX > UINT32_MAX
static bool has_room(struct faster_hex_answer answer, size_t written) {
    return is_told(answer, written, FASTER_HEX_DONE);
}

static bool wants(struct faster_hex_answer answer, size_t required) {
    return is_told(answer, required, FASTER_HEX_OUTPUT_TOO_SMALL);
}

/* Rooms and groups above 2^32, whose lower 32 bits are another number. */
static void wide_rooms(size_t wide, uint8_t *dst) {
    const char *src = "00ff0A1b";
    count(has_room(faster_hex_decode(src, 8, dst, wide), 4));
    count(has_room(faster_hex_decode_with_case(src, 8, dst, wide, 0), 4));
    count(has_room(faster_hex_decode_spaced("00 ff0A 1b", 10, dst, wide, 0), 4));
    count(has_room(faster_hex_encode(src, 8, dst, wide, false), 16));
    count(has_room(faster_hex_encode_grouped(src, 8, dst, wide, false, 1, ':'), 23));
    count(has_room(faster_hex_encode_grouped(src, 8, dst, 16, false, wide, ':'), 16));
    count(has_room(faster_hex_decode_grouped(src, 8, dst, wide, 0, wide, ':'), 4));
}

/* A source of so many zero bytes, which use no memory. Its first byte is no digit. A build may read all of it. */
static void wide_source(size_t len) {
    void *src = mmap(NULL, len, PROT_READ, MAP_PRIVATE | MAP_ANONYMOUS, -1, 0);
    count(src != MAP_FAILED && !faster_hex_check(src, len) && !faster_hex_check_with_case(src, len, 0));
    count(src != MAP_FAILED && faster_hex_first_invalid(src, len, 0).status == FASTER_HEX_INVALID_CHAR);
    munmap(src, len);
}

/* Lengths above 2^32, whose lower 32 bits are another number. */
static void wide_lengths(size_t wide) {
    const char *src = ""; /* is not read */
    count(wants(faster_hex_decode(src, wide, NULL, 0), wide / 2));
    count(wants(faster_hex_decode_with_case(src, wide, NULL, 0, 0), wide / 2));
    count(wants(faster_hex_encode(src, wide, NULL, 0, true), 2 * wide));
    count(wants(faster_hex_encode_grouped(src, wide, NULL, 0, true, wide - 1, ':'), 2 * wide + 1));
    count(wants(faster_hex_decode_grouped(src, wide, NULL, 0, 0, wide, ':'), wide / 2));
}

static void above_32_bits(uint8_t *dst) {
    for (unsigned bit = 32; bit < 64; bit++) {
        size_t wide = ((size_t)1 << bit) + 2;
        wide_rooms(wide, dst);
        if (bit < 63) wide_lengths(wide);
    }
    wide_source((size_t)1 << 32);
}
#endif

/* No number above 2 is a policy. */
static void other_policies(void) {
    for (unsigned policy = 3; policy < 256; policy++) {
        uint8_t byte = 0xa5, number = (uint8_t)policy;
        count(!faster_hex_check_with_case("00", 2, number));
        count(is_told(faster_hex_first_invalid("00", 2, number), 0, FASTER_HEX_UNKNOWN_POLICY) &&
              is_told(faster_hex_decode_with_case("00", 2, &byte, 1, number), 0, FASTER_HEX_UNKNOWN_POLICY) &&
              is_told(faster_hex_decode_spaced("00", 2, &byte, 1, number), 0, FASTER_HEX_UNKNOWN_POLICY) &&
              is_told(faster_hex_decode_grouped("00", 2, &byte, 1, number, 1, ':'), 0,
                      FASTER_HEX_UNKNOWN_POLICY) && byte == 0xa5);
    }
}

#if defined FASTER_HEX_X86_64 || defined FASTER_HEX_AARCH64
/* A build must use only the lowest eight bits of a policy, whatever a caller has in the register above them. */
static void wide_policies(void) {
    typedef struct faster_hex_answer passes(const void *, size_t, unsigned);
    passes *volatile first_invalid = (passes *)(void (*)(void))faster_hex_first_invalid;
    count(has_room(first_invalid("aB", 2, 256), 0));
    count(has_room(first_invalid("AB", 2, 258), 0));
    count(first_invalid("Ab", 2, 258).number == 1);
    count(is_told(first_invalid("AB", 2, 259), 0, FASTER_HEX_UNKNOWN_POLICY));
}
#endif

/* Source and destination are adjacent in one piece of memory, in either order. */
static void touching(struct memory both) {
    for (unsigned call = ENCODE; call < CALLS; call++) {
        bool holds = true;
        for (unsigned at = 0; at < (LONGEST + 1) * 16; at++) {
            unsigned turn = at % 16;
            struct job it = job_of((enum call)call, at / 16, turn);
            uint8_t *src = both.start + (turn & 1 ? it.room : 0), *dst = both.start + (turn & 1 ? 0 : it.len);
            holds = tries(it, src, dst, turn, both) && holds;
        }
        count(holds);
    }
}

/* Each alignment of source and destination to 64 bytes. */
static void aligned(struct memory from, struct memory to) {
    for (unsigned source = 0; source < 64; source++) {
        bool holds = true;
        for (unsigned at = 0; at < 64 * CALLS; at++) {
            unsigned destination = at / CALLS, turn = source + destination;
            struct job it = job_of((enum call)(at % CALLS), 130 + turn % 3, turn);
            holds = tries(it, from.start + source, to.start + destination, turn, to) && holds;
        }
        count(holds);
    }
}

/* A thread's destination, and whether all of its calls were right. The sources are shared by all threads. */
struct worker {
    struct memory to;
    bool holds;
};
static uint8_t shared[CALLS][12][LONGEST];
static pthread_mutex_t gate = PTHREAD_MUTEX_INITIALIZER;

static void *works(void *given) {
    struct worker *worker = given;
    pthread_mutex_lock(&gate);
    pthread_mutex_unlock(&gate);
    for (unsigned at = 0; at < TURNS * CALLS; at++) {
        unsigned call = at % CALLS, turn = at / CALLS % 12;
        struct job it = job_of((enum call)call, LONGEST, turn);
        it.src = shared[call][turn];
        it.dst = worker->to.start;
        worker->holds = agrees(&it, worker->to) && worker->holds;
    }
    return NULL;
}

/* Threads that start at the same time, read the same sources and write into adjacent memory. */
static void in_threads(void) {
    static uint8_t room[THREADS][2 * LONGEST + LONGEST + 8];
    struct worker workers[THREADS];
    pthread_t threads[THREADS];
    for (unsigned at = 0; at < CALLS * 12; at++) {
        struct job it = job_of((enum call)(at / 12), LONGEST, at % 12);
        fill(&it, shared[at / 12][at % 12], at % 12);
    }
    pthread_mutex_lock(&gate);
    for (unsigned i = 0; i < THREADS; i++) {
        uint8_t *kept = malloc(2 * sizeof room[i]);
        workers[i] = (struct worker){ { room[i], sizeof room[i], kept }, kept != NULL };
        if (pthread_create(&threads[i], NULL, works, &workers[i]) != 0) exit(2);
    }
    pthread_mutex_unlock(&gate);
    for (unsigned i = 0; i < THREADS; i++) {
        pthread_join(threads[i], NULL);
        count(workers[i].holds);
        free(workers[i].to.kept);
    }
}

int main(int words, char **word) {
    const char *given = getenv("SEED");
    seed = given && *given ? strtoul(given, NULL, 10) : (unsigned long)time(NULL);
    if (words > 1 && strcmp(word[1], "threads") == 0) {
        in_threads();
    } else {
        struct memory from = guarded(LONGEST), to = guarded(3 * LONGEST);
        /* A call that writes where it must not ends the program, so the seed is printed before. */
        printf("lengths and groups are drawn from SEED=%lu\n", seed);
        fflush(stdout);
        at_drawn_lengths();
        for (size_t len = 0; len <= LONGEST; len++) at_length(len, 60, from, to);
        at_long_lengths();
        with_space((struct memory){ to.start, LONGEST, to.kept });
        with_null(to);
        too_long(to);
        other_policies();
#if SIZE_MAX > UINT32_MAX
        above_32_bits(to.start);
#endif
#if defined FASTER_HEX_X86_64 || defined FASTER_HEX_AARCH64
        wide_policies();
#endif
        touching(to);
        aligned(from, to);
        free(from.kept);
        free(to.kept);
    }
    printf("%lu passed, %lu failed\n", passed, failed);
    return failed != 0;
}
