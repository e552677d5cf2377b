/* The calls of faster_hex.h in plain C, which take one byte at a time, for processors and systems without a build.
 * They are not proved, but tests compare them with the builds. */
#include "faster_hex.h"

typedef struct faster_hex_answer answer;

static answer answer_of(uint8_t status, size_t number) {
    return (answer){ number, status, 0 };
}

/* The value of a digit under a policy, or 16. */
static unsigned value_of(uint8_t byte, uint8_t policy) {
    if (byte >= '0' && byte <= '9') return byte - '0';
    if (byte >= 'a' && byte <= 'f' && policy != FASTER_HEX_UPPERCASE) return byte - 'a' + 10;
    if (byte >= 'A' && byte <= 'F' && policy != FASTER_HEX_LOWERCASE) return byte - 'A' + 10;
    return 16;
}

static bool is_group(size_t every, uint8_t sep) {
    return every != 0 && sep < 0x80 && value_of(sep, FASTER_HEX_EITHER_CASE) == 16;
}

/* The group size of a text without separators: no text is longer. */
#define WHOLE SIZE_MAX

/* The length of a group's digits and the separator after them. If it exceeds SIZE_MAX, it is SIZE_MAX, because no text
 * is longer. */
static size_t span_of(size_t every) {
    return every <= SIZE_MAX / 2 ? 2 * every + 1 : SIZE_MAX;
}

/* Returns the first byte that is no digit, or no separator where one must be. */
static answer search(const uint8_t *src, size_t len, uint8_t policy, size_t every, uint8_t sep) {
    for (size_t at = 0, digits = span_of(every) - 1; at < len; at++) {
        bool separates = digits == 0;
        if (separates ? src[at] != sep : value_of(src[at], policy) == 16) {
            return (answer){ at, FASTER_HEX_INVALID_CHAR, src[at] };
        }
        digits = separates ? span_of(every) - 1 : digits - 1;
    }
    return answer_of(FASTER_HEX_DONE, 0);
}

/* Encodes in groups. */
static answer write_groups(const uint8_t *src, size_t len, uint8_t *dst, size_t room, bool upper,
                         size_t every, uint8_t sep) {
    const char *digits = upper ? "0123456789ABCDEF" : "0123456789abcdef";
    size_t separators = len == 0 ? 0 : (len - 1) / every, required = 2 * len + separators;
    if (len > SIZE_MAX / 2 || required < separators) return answer_of(FASTER_HEX_OVERFLOW, 0);
    if (room < required) return answer_of(FASTER_HEX_OUTPUT_TOO_SMALL, required);
    for (size_t at = 0, bytes = every; at < len; at++, bytes--) {
        if (bytes == 0) {
            *dst++ = sep;
            bytes = every;
        }
        *dst++ = (uint8_t)digits[src[at] / 16];
        *dst++ = (uint8_t)digits[src[at] % 16];
    }
    return answer_of(FASTER_HEX_DONE, required);
}

/* Decodes a text in groups. `bad_length` is the status for a length that no text has: without groups this is an odd
 * length. */
static answer read_groups(const uint8_t *src, size_t len, uint8_t *dst, size_t room, uint8_t policy,
                        size_t every, uint8_t sep, uint8_t bad_length) {
    size_t rest = len % span_of(every), required = len / span_of(every) * every + rest / 2;
    if (rest % 2 == 1 || (rest == 0 && len > 0)) return answer_of(bad_length, 0);
    if (room < required) return answer_of(FASTER_HEX_OUTPUT_TOO_SMALL, required);
    answer found = search(src, len, policy, every, sep);
    if (found.status != FASTER_HEX_DONE) return found;
    for (size_t at = 0, bytes = every; at < required; at++, bytes--, src += 2) {
        if (bytes == 0) {
            src++;
            bytes = every;
        }
        dst[at] = (uint8_t)(16 * value_of(src[0], policy) + value_of(src[1], policy));
    }
    return answer_of(FASTER_HEX_DONE, required);
}

static bool portable_check(const void *src, size_t len) {
    return search(src, len, FASTER_HEX_EITHER_CASE, WHOLE, 0).status == FASTER_HEX_DONE;
}

static bool portable_check_with_case(const void *src, size_t len, uint8_t policy) {
    return policy <= FASTER_HEX_UPPERCASE && search(src, len, policy, WHOLE, 0).status == FASTER_HEX_DONE;
}

static answer portable_first_invalid(const void *src, size_t len, uint8_t policy) {
    if (policy > FASTER_HEX_UPPERCASE) return answer_of(FASTER_HEX_UNKNOWN_POLICY, 0);
    return search(src, len, policy, WHOLE, 0);
}

static answer portable_encode(const void *src, size_t len, void *dst, size_t room, bool upper) {
    return write_groups(src, len, dst, room, upper, WHOLE, 0);
}

static answer portable_decode_with_case(const void *src, size_t len, void *dst, size_t room, uint8_t policy) {
    if (policy > FASTER_HEX_UPPERCASE) return answer_of(FASTER_HEX_UNKNOWN_POLICY, 0);
    return read_groups(src, len, dst, room, policy, WHOLE, 0, FASTER_HEX_ODD_LENGTH);
}

static answer portable_decode(const void *src, size_t len, void *dst, size_t room) {
    return portable_decode_with_case(src, len, dst, room, FASTER_HEX_EITHER_CASE);
}

static bool is_space(uint8_t byte) {
    return byte == ' ' || byte == '\t' || byte == '\n' || byte == '\f' || byte == '\r';
}

static answer portable_decode_spaced(const void *from, size_t len, void *to, size_t room, uint8_t policy) {
    const uint8_t *src = from;
    uint8_t *dst = to;
    size_t digits = 0, first = len;
    if (policy > FASTER_HEX_UPPERCASE) return answer_of(FASTER_HEX_UNKNOWN_POLICY, 0);
    for (size_t at = 0; at < len; at++) {
        if (is_space(src[at])) continue;
        digits++;
        if (first == len && value_of(src[at], policy) == 16) first = at;
    }
    if (digits % 2 == 1) return answer_of(FASTER_HEX_ODD_LENGTH, 0);
    if (room < digits / 2) return answer_of(FASTER_HEX_OUTPUT_TOO_SMALL, digits / 2);
    if (first < len) return (answer){ first, FASTER_HEX_INVALID_CHAR, src[first] };
    for (size_t at = 0, done = 0, high = 0; at < len; at++) {
        if (is_space(src[at])) continue;
        if (done % 2 == 1) dst[done / 2] = (uint8_t)(16 * high + value_of(src[at], policy));
        high = value_of(src[at], policy);
        done++;
    }
    return answer_of(FASTER_HEX_DONE, digits / 2);
}

static answer portable_encode_grouped(const void *src, size_t len, void *dst, size_t room, bool upper,
                                    size_t every, uint8_t sep) {
    if (!is_group(every, sep)) return answer_of(FASTER_HEX_NOT_A_GROUP, 0);
    return write_groups(src, len, dst, room, upper, every, sep);
}

static answer portable_decode_grouped(const void *src, size_t len, void *dst, size_t room, uint8_t policy,
                                    size_t every, uint8_t sep) {
    if (policy > FASTER_HEX_UPPERCASE) return answer_of(FASTER_HEX_UNKNOWN_POLICY, 0);
    if (!is_group(every, sep)) return answer_of(FASTER_HEX_NOT_A_GROUP, 0);
    return read_groups(src, len, dst, room, policy, every, sep, FASTER_HEX_BAD_LENGTH);
}
