/* Calls the library before and after its own constructor has run, and calls a second copy of it, which is loaded while
 * the program runs. `tests/test_library.py` builds it with the archive and runs it.
 * Usage: loading SHARED_LIBRARY */
#include <dlfcn.h>
#include <stdio.h>
#include <string.h>

#include "faster_hex.h"

typedef struct faster_hex_answer encodes(const void *, size_t, void *, size_t, bool);

static int passed, failed;

static void is_right(encodes *encode) {
    static const char bytes[40] = "forty bytes, more than the widest block";
    static const char wanted[] =
        "666f7274792062797465732c206d6f7265207468616e207468652077696465737420626c6f636b00";
    char digits[80];
    struct faster_hex_answer told = encode(bytes, sizeof bytes, digits, sizeof digits, false);
    bool holds = told.status == FASTER_HEX_DONE && memcmp(digits, wanted, sizeof digits) == 0;
    *(holds ? &passed : &failed) += 1;
}

__attribute__((constructor(101))) static void early(void) {
    is_right(faster_hex_encode);
}

int main(int count, char **words) {
    void *library = count == 2 ? dlopen(words[1], RTLD_NOW) : NULL;
    encodes *other;
    if (library == NULL) return 2;
    *(void **)&other = dlsym(library, "faster_hex_encode");
    is_right(faster_hex_encode);
    is_right(other);
    *(other != faster_hex_encode ? &passed : &failed) += 1;
    printf("%d passed, %d failed\n", passed, failed);
    return failed != 0;
}
