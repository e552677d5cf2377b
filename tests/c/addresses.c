/* Makes each call once for each length, on random keys that depend on a seed. There is a store to `mark` before
 * and after each call, so that `tests/test_secrets.py` finds the call in a trace. It compares the addresses that a
 * call uses on different keys. Without a seed the program prints a line for each call: its name, its case or
 * policy, and the length of its source. If PLANTED is defined, one call uses a lookup table, which must be found.
 * Usage: addresses [SEED] */
#include <stdint.h>
#include <stdio.h>
#include <stdlib.h>

#include "faster_hex.h"

enum { LONGEST = 4096, EACH = 320 };
static const size_t ABOVE[] = { 511, 512, 1000, 1024, 1025, 2047, LONGEST };

volatile int mark;
static volatile size_t answered;
static bool prints;
static uint64_t drawn;
static uint8_t bytes[LONGEST], digits[3][2 * LONGEST], written[2 * LONGEST];

static uint8_t draw(void) {
    drawn = drawn * 6364136223846793005u + 1442695040888963407u;
    return (uint8_t)(drawn >> 56);
}

/* Random digits that the policy accepts. Under FASTER_HEX_EITHER_CASE they have both cases. */
static void draw_digits(uint8_t policy) {
    for (size_t at = 0; at < 2 * LONGEST; at++) {
        const bool is_upper = policy == FASTER_HEX_EITHER_CASE ? draw() & 1 : policy == FASTER_HEX_UPPERCASE;
        digits[policy][at] = (uint8_t)(is_upper ? "0123456789ABCDEF" : "0123456789abcdef")[draw() % 16];
    }
}

static void begin(const char *name, unsigned word, size_t len) {
    if (prints) printf("%s(%u) %zu\n", name, word, len);
    mark = 1;
}

static void end(size_t number) {
    mark = 0;
    answered = number;
}

#ifdef PLANTED
__attribute__((noinline)) static struct faster_hex_answer planted(const uint8_t *src, size_t len) {
    static const uint8_t values['g'] = { ['a'] = 10, ['b'] = 11 };
    size_t sum = 0;
    for (size_t at = 0; at < len; at++) sum += values[src[at]];
    return (struct faster_hex_answer){ sum, 0, 0 };
}
#define faster_hex_decode(src, len, dst, room) planted(src, len)
#endif

static void make_calls(size_t len) {
    for (unsigned upper = 0; upper < 2; upper++) {
        begin("faster_hex_encode", upper, len);
        end(faster_hex_encode(bytes, len, written, 2 * len, upper).number);
    }
    begin("faster_hex_decode", 0, 2 * len);
    end(faster_hex_decode(digits[0], 2 * len, written, len).number);
    for (size_t odd = 0; odd < 2; odd++) {
        begin("faster_hex_check", 0, 2 * len - (odd && len));
        end(faster_hex_check(digits[0], 2 * len - (odd && len)));
    }
    for (uint8_t policy = 0; policy < 3; policy++) {
        begin("faster_hex_check_with_case", policy, 2 * len);
        end(faster_hex_check_with_case(digits[policy], 2 * len, policy));
        begin("faster_hex_first_invalid", policy, 2 * len);
        end(faster_hex_first_invalid(digits[policy], 2 * len, policy).number);
        begin("faster_hex_decode_with_case", policy, 2 * len);
        end(faster_hex_decode_with_case(digits[policy], 2 * len, written, len, policy).number);
    }
}

int main(int count, char **words) {
    prints = count == 1;
    drawn = prints ? 0 : strtoull(words[1], NULL, 10);
    for (size_t at = 0; at < LONGEST; at++) bytes[at] = draw();
    for (uint8_t policy = 0; policy < 3; policy++) draw_digits(policy);
    for (size_t len = 0; len <= EACH; len++) make_calls(len);
    for (size_t at = 0; at < sizeof ABOVE / sizeof *ABOVE; at++) make_calls(ABOVE[at]);
    return 0;
}
