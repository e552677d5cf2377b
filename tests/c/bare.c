/* Calls the library on a processor without an operating system, after bare.S, and compares the answers with plain C:
 * for all lengths up to MOST digits and for some greater ones, under each policy, with valid digits and with one byte
 * changed. It prints the level of the processor and `N passed, M failed` through port e9, which bochs copies to its
 * output. Then it ends bochs. */
#include "../../crates/faster_hex_c/dispatch.c"
#include "digits.h"

enum { PLACES = 64, AROUND = 64, OLD = 0xa5, LONGEST = 1280 };

/* With these, the loops for long sources take no turn, one or several, with each kind of rest. */
static const size_t long_lengths[] = { 574, 575, 576, 577, 640, 642, 704, 766, 768, 896, 1088, 1089, 1214, LONGEST };
static uint8_t source[PLACES + LONGEST], room[AROUND + LONGEST / 2 + AROUND];
static size_t passed, failed;

static void put(char byte) {
    __asm__ volatile("outb %0, $0xe9" : : "a"(byte));
}

static void print(const char *text) {
    for (; *text; text++) put(*text);
}

static void print_number(size_t number) {
    if (number > 9) print_number(number / 10);
    put((char)('0' + number % 10));
}

static void end(void) {
    for (const char *it = "Shutdown"; *it; it++) {
        __asm__ volatile("outb %0, %1" : : "a"(*it), "d"((uint16_t)0x8900));
    }
}

/* The next pseudo-random number. The numbers are the same in each run. */
static unsigned next(void) {
    static size_t state = 1;
    state = state * 6364136223846793005 + 1442695040888963407;
    return (unsigned)(state >> 33);
}

static uint8_t digit_of(unsigned half, uint8_t policy) {
    bool is_upper = policy == 2 || (policy == 0 && next() % 2);
    return (uint8_t)(half < 10 ? '0' + half : half - 10 + (is_upper ? 'A' : 'a'));
}

/* The index of the first byte that is no digit, or the length if there is none. */
static size_t valid(const uint8_t *src, size_t len, uint8_t policy) {
    size_t at = 0;
    while (at < len && value(policy, src[at]) >= 0) at++;
    return at;
}

/* Whether an answer is right, if the first invalid byte has this index. */
static bool fits(struct faster_hex_answer it, const uint8_t *src, size_t len, size_t at) {
    if (len % 2) return it.status == FASTER_HEX_ODD_LENGTH;
    if (at < len) return it.status == FASTER_HEX_INVALID_CHAR && it.number == at && it.byte == src[at];
    return it.status == FASTER_HEX_DONE && it.number == len / 2;
}

/* Whether the room has so many decoded bytes, and is unchanged after them and before them. */
static bool holds(const uint8_t *src, size_t bytes, uint8_t policy) {
    for (size_t at = 0; at < sizeof room; at++) {
        size_t digit = 2 * (at - AROUND);
        bool is_decoded = at >= AROUND && at < AROUND + bytes;
        int wanted = is_decoded ? value(policy, src[digit]) * 16 + value(policy, src[digit + 1]) : OLD;
        if (room[at] != wanted) return false;
    }
    return true;
}

static void try(const uint8_t *src, size_t len, uint8_t policy) {
    size_t at = valid(src, len, policy), bytes = at == len && len % 2 == 0 ? len / 2 : 0;
    uint8_t *dst = room + AROUND;
    for (size_t it = 0; it < sizeof room; it++) room[it] = OLD;
    bool is_right = faster_hex_check_with_case(src, len, policy) == (at == len);
    is_right &= fits(faster_hex_decode_with_case(src, len, dst, len / 2, policy), src, len, at);
    is_right &= holds(src, bytes, policy);
    if (policy == 0) {
        for (size_t it = 0; it < bytes; it++) dst[it] = OLD;
        is_right &= faster_hex_check(src, len) == (at == len);
        is_right &= fits(faster_hex_decode(src, len, dst, len / 2), src, len, at);
        is_right &= holds(src, bytes, policy);
    }
    passed += is_right;
    failed += !is_right;
    if (!is_right) {
        print("failed: length ");
        print_number(len);
        print(", policy ");
        print_number(policy);
        print("\n");
    }
}

/* Tries valid digits, and then digits with one byte changed: one of the last bytes, any byte, and to any value. */
static void try_length(size_t len, uint8_t policy) {
    static const uint8_t others[] = "/:@G`g\xff\x00\x7f\xb0 \n";
    for (int way = 0; way < 4 && (way == 0 || len > 0); way++) {
        uint8_t *src = source + next() % PLACES;
        for (size_t at = 0; at < len; at++) src[at] = digit_of(next() % 16, policy);
        size_t last = len < 64 ? len : 64;
        size_t at = way == 1 ? len - 1 - next() % last : way > 1 ? next() % len : 0;
        if (way > 0) src[at] = way == 3 ? (uint8_t)next() : others[next() % (sizeof others - 1)];
        try(src, len, policy);
    }
}

void bare(void) {
    raise_level();
    print("level ");
    print_number(level);
    print("\n");
    for (uint8_t policy = 0; policy < 3; policy++) {
        for (size_t len = 0; len <= MOST; len++) try_length(len, policy);
        for (size_t at = 0; at < sizeof long_lengths / sizeof *long_lengths; at++) try_length(long_lengths[at], policy);
    }
    print_number(passed);
    print(" passed, ");
    print_number(failed);
    print(" failed\n");
    end();
}
