// The loops that a user might write for grouped digits. The writing loop looks up two digits for each byte, and puts a
// separator between groups. For reading there are two loops: one checks everything, and the next one stores the bytes.
#include <stdbool.h>
#include <stddef.h>
#include <stdint.h>

#define INLINE static inline __attribute__((always_inline))

static const uint8_t digits[] = "0123456789abcdef";

// The value of each digit, and 255 for every other byte.
static uint8_t values[256];

static __attribute__((constructor)) void fill(void) {
    for (int i = 0; i < 256; i++) {
        values[i] = 255;
    }
    for (int i = 0; i < 16; i++) {
        values[digits[i]] = i;
        values[(uint8_t)"0123456789ABCDEF"[i]] = i;
    }
}

// Returns the number of bytes in the group that begins here. The last group may be shorter.
static inline size_t least(size_t every, size_t left) {
    return every < left ? every : left;
}

INLINE size_t write_by(const uint8_t *src, size_t len, uint8_t *dst, size_t every) {
    uint8_t *to = dst;
    for (size_t at = 0; at < len; at += every) {
        if (at != 0) {
            *to++ = ':';
        }
        size_t count = least(every, len - at);
        for (size_t i = 0; i < count; i++) {
            *to++ = digits[src[at + i] >> 4];
            *to++ = digits[src[at + i] & 15];
        }
    }
    return to - dst;
}

INLINE bool is_right(const uint8_t *src, size_t len, size_t every) {
    for (size_t at = 0; at < len; at += 2 * every + 1) {
        size_t count = least(2 * every, len - at);
        for (size_t i = 0; i < count; i++) {
            if (values[src[at + i]] > 15) {
                return false;
            }
        }
        if (at + count < len && src[at + count] != ':') {
            return false;
        }
    }
    return true;
}

INLINE size_t read_by(const uint8_t *src, size_t len, uint8_t *dst, size_t every) {
    if (!is_right(src, len, every)) {
        return 0;
    }
    uint8_t *to = dst;
    for (size_t at = 0; at < len; at += 2 * every + 1) {
        size_t count = least(2 * every, len - at);
        for (size_t i = 0; i < count; i += 2) {
            *to++ = values[src[at + i]] << 4 | values[src[at + i + 1]];
        }
    }
    return to - dst;
}

// The same loops with a constant number of bytes in a group.
#define BY(n) \
    size_t write_by_##n(const uint8_t *src, size_t len, uint8_t *dst) { return write_by(src, len, dst, n); } \
    size_t read_by_##n(const uint8_t *src, size_t len, uint8_t *dst) { return read_by(src, len, dst, n); }
BY(1)
BY(16)
