/* What the tests in C share. */
#include "faster_hex.h"

/* The value of a digit under a policy, or -1. */
static int value(uint8_t policy, uint8_t byte) {
    if (byte >= '0' && byte <= '9') return byte - '0';
    if (byte >= 'a' && byte <= 'f' && policy != FASTER_HEX_UPPERCASE) return byte - 'a' + 10;
    if (byte >= 'A' && byte <= 'F' && policy != FASTER_HEX_LOWERCASE) return byte - 'A' + 10;
    return -1;
}
