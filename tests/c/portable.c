/* Makes random calls of the library and the same calls of portable.h, and compares answers and destinations, byte
 * for byte. Prints a line for each difference, and `N passed, M failed` at the end.
 * Usage: portable [CALLS [SEED]], where the seed is not 0 */
#include <stdio.h>
#include <stdlib.h>
#include <string.h>

#include "portable.h"

enum { CALLS = 8, LONGEST = 400, ROOM = 3 * LONGEST };

struct job {
    unsigned call;
    uint8_t src[LONGEST];
    size_t len, room, every;
    bool upper;
    uint8_t policy, sep;
};

static uint64_t state;

/* A random number below the bound. */
static size_t below(size_t bound) {
    state ^= state << 13;
    state ^= state >> 7;
    state ^= state << 17;
    return (size_t)(state >> 20) % bound;
}

static answer run(const struct job *it, bool by_library, uint8_t *dst) {
#define CALL(name, ...) (by_library ? faster_hex_##name(it->src, it->len, __VA_ARGS__) \
                                    : portable_##name(it->src, it->len, __VA_ARGS__))
    bool is_hex = by_library ? faster_hex_check(it->src, it->len) : portable_check(it->src, it->len);
    bool is_strict = by_library ? faster_hex_check_with_case(it->src, it->len, it->policy)
                                : portable_check_with_case(it->src, it->len, it->policy);
    switch (it->call) {
    case 0: return answer_of(FASTER_HEX_DONE, 2u * is_strict + is_hex);
    case 1: return CALL(first_invalid, it->policy);
    case 2: return CALL(encode, dst, it->room, it->upper);
    case 3: return CALL(decode, dst, it->room);
    case 4: return CALL(decode_with_case, dst, it->room, it->policy);
    case 5: return CALL(encode_grouped, dst, it->room, it->upper, it->every, it->sep);
    case 6: return CALL(decode_spaced, dst, it->room, it->policy);
    default: return CALL(decode_grouped, dst, it->room, it->policy, it->every, it->sep);
    }
}

/* Writes digits for the call to read, with white space for call 6, and in groups for call 7. In half of the texts a
 * random byte is put somewhere. */
static void fill(struct job *it) {
    static const char *const letters[] = { "0123456789aBcDeF", "0123456789abcdef", "0123456789ABCDEF" };
    size_t span = it->call >= 6 && it->every > 0 ? span_of(it->every) : WHOLE;
    for (size_t at = 0; at < it->len; at++) {
        bool separates = at % span == span - 1;
        if (separates && it->call == 6) it->sep = (uint8_t)" \t\n\f\r"[below(5)];
        it->src[at] = separates ? it->sep : (uint8_t)letters[it->policy % 3][below(16)];
    }
    if (it->len > 0 && below(2)) it->src[below(it->len)] = (uint8_t)below(256);
}

/* Random texts and rooms of all lengths, most of which fit, with valid and invalid policies, groups and separators. */
static void choose(struct job *it) {
    static const uint8_t separators[] = ":- \n,.a";
    it->call = (unsigned)below(CALLS);
    it->len = below(below(2) ? LONGEST : 70);
    it->every = below(4) ? below(20) : below(2) ? below(LONGEST) : SIZE_MAX / 2 - 1 + below(4);
    it->sep = below(8) ? separators[below(7)] : (uint8_t)below(256);
    it->policy = (uint8_t)(below(16) ? below(3) : below(256));
    it->upper = below(2);
    fill(it);
    it->room = below(8) ? ROOM : below(ROOM);
}

int main(int words, char **word) {
    unsigned long calls = words > 1 ? strtoul(word[1], NULL, 10) : 100000, failed = 0;
    state = words > 2 ? strtoul(word[2], NULL, 10) : 1;
    for (unsigned long at = 0; at < calls; at++) {
        uint8_t by_library[ROOM] = { 0 }, by_portable[ROOM] = { 0 };
        struct job it;
        choose(&it);
        answer wanted = run(&it, true, by_library), found = run(&it, false, by_portable);
        bool same = wanted.number == found.number && wanted.status == found.status &&
                    wanted.byte == found.byte && memcmp(by_library, by_portable, ROOM) == 0;
        if (!same) {
            printf("failed: call %u of %lu bytes: status %u, and not %u\n", it.call, (unsigned long)it.len,
                   found.status, wanted.status);
            failed++;
        }
    }
    printf("%lu passed, %lu failed\n", calls - failed, failed);
    return failed != 0;
}
