/* Prints the digits of its argument and decodes them again. Then it checks some digits, and writes and reads digits in
 * groups. ../README.md says how to build it. `tests/test_examples.py` builds and runs it. */
#include <stddef.h>
#include <stdio.h>
#include <string.h>

#include "faster_hex.h"

/* struct faster_hex_answer must have the layout for which the library was compiled: two machine words, which a call
 * returns in two registers. If it has another layout, one of these lines does not compile. */
#define ASSERT(name, holds) typedef char name[(holds) ? 1 : -1]
ASSERT(number_is_first, offsetof(struct faster_hex_answer, number) == 0);
ASSERT(status_is_behind, offsetof(struct faster_hex_answer, status) == sizeof(size_t));
ASSERT(byte_is_behind, offsetof(struct faster_hex_answer, byte) == sizeof(size_t) + 1);
ASSERT(answer_is_two_words, sizeof(struct faster_hex_answer) == 2 * sizeof(size_t));

enum { LONGEST = 64 };

static void show(const char *text, size_t len) {
    printf("%.*s\n", (int)len, text);
}

int main(int count, char **words) {
    const char *word = count > 1 ? words[1] : "hello";
    char digits[FASTER_HEX_ENCODED_LEN(LONGEST)], bytes[LONGEST];
    char groups[FASTER_HEX_GROUPED_LEN(LONGEST, 1)];
    struct faster_hex_answer told;

    told = faster_hex_encode(word, strlen(word), digits, sizeof digits, false);
    if (told.status == FASTER_HEX_OUTPUT_TOO_SMALL) {
        fprintf(stderr, "that takes %lu bytes of room\n", (unsigned long)told.number);
        return 1;
    }
    show(digits, told.number);
    told = faster_hex_decode(digits, told.number, bytes, sizeof bytes);
    show(bytes, told.number);

    told = faster_hex_decode_with_case("00Ff", 4, bytes, sizeof bytes, FASTER_HEX_LOWERCASE);
    if (told.status == FASTER_HEX_INVALID_CHAR) {
        printf("invalid hex byte 0x%02x at index %lu\n", told.byte, (unsigned long)told.number);
    }
    told = faster_hex_first_invalid("00Ffg", 5, FASTER_HEX_EITHER_CASE);
    printf("%s up to index %lu\n", faster_hex_check("00Ff", 4) ? "digits" : "no digits",
           (unsigned long)told.number);

    told = faster_hex_encode_grouped("\0\x1b\x21\xab", 4, groups, sizeof groups, true, 1, ':');
    show(groups, told.number);
    told = faster_hex_decode_grouped(groups, told.number, bytes, sizeof bytes,
                                     FASTER_HEX_UPPERCASE, 1, ':');
    printf("%lu bytes, the last 0x%02x\n", (unsigned long)told.number,
           (unsigned char)bytes[told.number - 1]);

    /* Nothing is read or written where a length is 0. */
    return faster_hex_decode(NULL, 0, NULL, 0).status;
}
