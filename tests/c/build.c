/* Prints which build calls use before the library's own constructor has run, and which one they use in `main`.
 * Usage: build */
#include <stdio.h>

#include "faster_hex.h"

static const char *before;

__attribute__((constructor(101))) static void early(void) {
    before = faster_hex_build();
}

int main(void) {
    printf("%s %s\n", before, faster_hex_build());
    return 0;
}
