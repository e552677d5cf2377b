/* Converts bytes to hex digits and back. faster_hex(3) says how to compile and link. C++17 can include faster_hex.hpp,
 * which has encode, decode and decode_spaced for types of C++, and throws errors as exceptions.
 *
 * Example, which decodes a key of 16 bytes from `len` digits at `text`:
 *
 *     unsigned char key[16];
 *     struct faster_hex_answer answer = faster_hex_decode(text, len, key, sizeof key);
 *
 *     if (answer.status == FASTER_HEX_INVALID_CHAR) {
 *         printf("invalid byte 0x%02x at index %zu\n", answer.byte, answer.number);
 *     } else if (answer.status != FASTER_HEX_DONE) {
 *         printf("%s\n", faster_hex_status_text(answer.status));
 *     } else if (answer.number != sizeof key) {
 *         printf("only %zu bytes\n", answer.number);
 *     }
 *
 * These rules hold for every call, unless the call says otherwise:
 *
 * - The source is `len` bytes at `src`. The destination is `room` bytes at `dst`. A pointer may be NULL if its
 *   length is 0. Nothing else of the caller's memory is read or written.
 * - Source and destination may be adjacent, but they must not overlap. No alignment is required.
 * - An empty source is valid: a check returns true, and a call that converts writes nothing.
 * - A call that fails reports the first error, in the order that the call lists, and leaves the destination unchanged.
 *   A call that encodes or decodes writes to the front of the destination and leaves the rest unchanged.
 * - No call keeps a pointer, allocates memory or changes any state. On x86-64 the library has one byte of
 *   state, which records what the processor supports. It is written when the library is loaded.
 * - Calls may run in many threads at the same time, also on the same source, if no destination overlaps what
 *   another call reads or writes.
 * - The library needs no external symbols, not even libc.
 * - gcc and clang warn if a result that says whether a call failed is not used.
 *
 * What is known: the source of the assembly is proved to return and write what the comments at its calls say, for
 * lengths below 2^63. The assembly is tested. On Linux, for aarch64 and for x86-64-v2 and later, the machine code of
 * the calls for digits without groups and white space was also checked in one archive, for every length and all bytes.
 * dispatch.c and plain C are not proved. For keys, see faster_hex(3).
 */
#ifndef FASTER_HEX_H
#define FASTER_HEX_H

#include <stdbool.h>
#include <stddef.h>
#include <stdint.h>

#define FASTER_HEX_VERSION_MAJOR 1
#define FASTER_HEX_VERSION_MINOR 0
#define FASTER_HEX_VERSION_PATCH 0
#define FASTER_HEX_VERSION "1.0.0"

/* Converts a number to size_t, with the cast of C or of C++. */
#ifdef __cplusplus
#define FASTER_HEX_SIZE(n) static_cast<size_t>(n)
#else
#define FASTER_HEX_SIZE(n) ((size_t)(n))
#endif

/* The number of digits for n bytes, and the number of bytes for n digits. If n is a constant, each of them can be the
 * length of an array. For n above SIZE_MAX / 2 the first one wraps around. faster_hex_encode then returns
 * FASTER_HEX_OVERFLOW. */
#define FASTER_HEX_ENCODED_LEN(n) (FASTER_HEX_SIZE(2) * (n))
#define FASTER_HEX_DECODED_LEN(n) (FASTER_HEX_SIZE(n) / 2)

/* The length of the text of n bytes in groups of `every` bytes, with one separator between two groups. `every` must
 * not be 0. The macro evaluates n more than once. If the length does not fit in size_t, the macro wraps around, and
 * faster_hex_encode_grouped returns FASTER_HEX_OVERFLOW. */
#define FASTER_HEX_GROUPED_LEN(n, every) \
    (FASTER_HEX_ENCODED_LEN(n) + ((n) == 0 ? FASTER_HEX_SIZE(0) : (FASTER_HEX_SIZE(n) - 1) / (every)))

/* Marks each call whose result must be used, because it says whether the call failed. */
#ifdef __GNUC__
#define FASTER_HEX_MUST_USE __attribute__((warn_unused_result))
#else
#define FASTER_HEX_MUST_USE
#endif

#ifdef __cplusplus
extern "C" {
#endif

/* In C90 `bool` is an extension, about which clang would warn. */
#ifdef __clang__
#pragma clang diagnostic push
#pragma clang diagnostic ignored "-Wc99-extensions"
#endif

/* A policy says which letters are accepted as digits. */
enum {
    FASTER_HEX_EITHER_CASE = 0, /* a to f and A to F, also mixed in one text */
    FASTER_HEX_LOWERCASE = 1,   /* a to f */
    FASTER_HEX_UPPERCASE = 2    /* A to F */
};

/* A status is FASTER_HEX_DONE, or the first error in the order that the call lists. */
enum {
    FASTER_HEX_DONE = 0,             /* no error; number: how many bytes were written */
    FASTER_HEX_ODD_LENGTH = 1,       /* the length is odd; white space that is skipped does not count */
    FASTER_HEX_OUTPUT_TOO_SMALL = 2, /* `room` is too small; number: the room required */
    FASTER_HEX_INVALID_CHAR = 3,     /* a byte is no accepted digit, or a wrong separator; number: the index
                                      * of the first such byte */
    FASTER_HEX_OVERFLOW = 4,         /* the length of the text does not fit in size_t */
    FASTER_HEX_UNKNOWN_POLICY = 5,   /* `policy` is above 2 */
    FASTER_HEX_NOT_A_GROUP = 6,      /* `every` is 0, or `sep` is a hex digit or not ASCII */
    FASTER_HEX_BAD_LENGTH = 7        /* no grouped text has this length */
};

struct faster_hex_answer {
    size_t number;  /* what the comment at the status says, otherwise 0 */
    uint8_t status;
    uint8_t byte;   /* the first invalid byte for FASTER_HEX_INVALID_CHAR, otherwise 0 */
};

/* Returns whether all bytes are digits of either case. The length may be odd. */
FASTER_HEX_MUST_USE
bool faster_hex_check(const void *src, size_t len);

/* Returns whether all bytes are digits under a policy. For a number that is no policy it returns false. */
FASTER_HEX_MUST_USE
bool faster_hex_check_with_case(const void *src, size_t len, uint8_t policy);

/* Finds the first byte that is not a digit under the policy. The length may be odd. If there is such a byte, the
 * status is FASTER_HEX_INVALID_CHAR, with the index and the byte. If there is none, the status is FASTER_HEX_DONE and
 * number is 0.
 * Errors, in the order tested: FASTER_HEX_UNKNOWN_POLICY, FASTER_HEX_INVALID_CHAR. */
FASTER_HEX_MUST_USE
struct faster_hex_answer faster_hex_first_invalid(const void *src, size_t len, uint8_t policy);

/* Writes 2 * len digits, in uppercase if `upper` is true. It writes no terminating zero.
 * Errors, in the order tested: FASTER_HEX_OVERFLOW, FASTER_HEX_OUTPUT_TOO_SMALL. */
FASTER_HEX_MUST_USE
struct faster_hex_answer faster_hex_encode(const void *src, size_t len,
                                           void *dst, size_t room, bool upper);

/* Decodes digits of either case to len / 2 bytes.
 * Errors, in the order tested: FASTER_HEX_ODD_LENGTH, FASTER_HEX_OUTPUT_TOO_SMALL, FASTER_HEX_INVALID_CHAR. */
FASTER_HEX_MUST_USE
struct faster_hex_answer faster_hex_decode(const void *src, size_t len,
                                           void *dst, size_t room);

/* Decodes digits under a policy to len / 2 bytes.
 * Errors, in the order tested: FASTER_HEX_UNKNOWN_POLICY, FASTER_HEX_ODD_LENGTH, FASTER_HEX_OUTPUT_TOO_SMALL,
 * FASTER_HEX_INVALID_CHAR. */
FASTER_HEX_MUST_USE
struct faster_hex_answer faster_hex_decode_with_case(const void *src, size_t len,
                                                     void *dst, size_t room, uint8_t policy);

/* Decodes digits under a policy, and skips ASCII white space among them, also between the two digits of a byte. White
 * space is a space, tab, newline, form feed or carriage return. So this call decodes what `xxd -p` and
 * `openssl rand -hex` print. The room required is half the number of bytes that are not white space. After
 * FASTER_HEX_INVALID_CHAR, number is the index in the source. The call is not constant time: do not use it for keys.
 * Errors, in the order tested: FASTER_HEX_UNKNOWN_POLICY, FASTER_HEX_ODD_LENGTH, FASTER_HEX_OUTPUT_TOO_SMALL,
 * FASTER_HEX_INVALID_CHAR. */
FASTER_HEX_MUST_USE
struct faster_hex_answer faster_hex_decode_spaced(const void *src, size_t len,
                                                  void *dst, size_t room, uint8_t policy);

/* Writes the digits of `every` bytes, then `sep`, then the digits of the next `every` bytes, and so on. The last group
 * may be shorter, and no separator follows it. The text has FASTER_HEX_GROUPED_LEN(len, every) bytes.
 * For example, the bytes 0, 1, 0x1b and 0x21 give 00:01:1b:21 if `every`
 * is 1 and `sep` is ':'. They give 0001 1b21 if `every` is 2 and `sep` is ' '.
 * Errors, in the order tested: FASTER_HEX_NOT_A_GROUP, FASTER_HEX_OVERFLOW, FASTER_HEX_OUTPUT_TOO_SMALL. */
FASTER_HEX_MUST_USE
struct faster_hex_answer faster_hex_encode_grouped(const void *src, size_t len, void *dst, size_t room,
                                                   bool upper, size_t every, uint8_t sep);

/* Decodes a text in such groups, under a policy. FASTER_HEX_DECODED_LEN(len) bytes of room always suffice.
 * Errors, in the order tested: FASTER_HEX_UNKNOWN_POLICY, FASTER_HEX_NOT_A_GROUP, FASTER_HEX_BAD_LENGTH,
 * FASTER_HEX_OUTPUT_TOO_SMALL, FASTER_HEX_INVALID_CHAR. */
FASTER_HEX_MUST_USE
struct faster_hex_answer faster_hex_decode_grouped(const void *src, size_t len, void *dst, size_t room,
                                                   uint8_t policy, size_t every, uint8_t sep);

/* Describes a status in words, such as "invalid hex byte". For a number that is no status it returns "unknown status".
 * Returns a static string; do not free it. */
const char *faster_hex_status_text(uint8_t status);

/* Returns the version of the library that is loaded. FASTER_HEX_VERSION is the version of the header, and the two can
 * differ. The returned version ends with "+unproved" if the library was built by `make UNPROVED=yes` or by CMake with
 * FASTER_HEX_UNPROVED, which accept assembly that somebody has changed. Returns a static string; do not free it. */
const char *faster_hex_version(void);

/* Names the chosen build, which is the library's code for one kind of processor: "x86-64", "x86-64-v2", "x86-64-v3",
 * "x86-64-v4", "x86-64-vbmi" (which is "x86-64-v4" with AVX-512 VBMI), "aarch64", or "portable" (which is plain C).
 * Later versions may have other builds. Ask before you handle keys: faster_hex(3) says which builds are for them. While
 * the program is being loaded, calls may still use the build "x86-64". Returns a static string; do not free it. */
const char *faster_hex_build(void);

#ifdef __clang__
#pragma clang diagnostic pop
#endif

#ifdef __cplusplus
}
#endif

#endif
