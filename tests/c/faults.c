/* Makes one call with wrong arguments, which a sanitizer must report, or with right ones. Then it ends with status 0.
 * In the races, another thread writes the source or reads the destination while the call may run.
 * Usage: faults none|short-destination|short-source|short-invalid|freed|unwritten|unwritten-invalid
 *        faults race-source|race-destination */
#include <pthread.h>
#include <stdlib.h>
#include <string.h>

#include "faster_hex.h"

static const char DIGITS[] = "00112233445566778899aabbccddeeff0011223344556677";

/* Makes the call. Both pieces of memory are on the heap, and may be shorter than the call says or already freed. */
static int made(const char *fault, char *bytes, char *digits) {
    bool is_short = strcmp(fault, "short-destination") == 0;
    if (is_short || strcmp(fault, "none") == 0) {
        struct faster_hex_answer told = faster_hex_decode(DIGITS, 48, bytes, 24);
        return told.status == FASTER_HEX_DONE && (is_short || bytes[3] == 0x33) ? 0 : 3;
    }
    /* The call reports the first byte as invalid, but it has read the other bytes too. */
    bool is_unwritten = strcmp(fault, "unwritten-invalid") == 0;
    if (is_unwritten || strcmp(fault, "short-invalid") == 0) {
        digits[0] = 'g';
        return faster_hex_decode(digits, is_unwritten ? 4 : 48, bytes, 24).status == FASTER_HEX_INVALID_CHAR ? 0 : 3;
    }
    if (strcmp(fault, "unwritten") != 0) memset(digits, '0', 4);
    if (strcmp(fault, "freed") == 0) free(digits);
    return faster_hex_check(digits, strcmp(fault, "short-source") == 0 ? 48 : 4) ? 0 : 3;
}

enum { OLD = 7 };
static char shared[48], decoded[24];

static void *writes_source(void *unused) {
    shared[5] = '7';
    return unused;
}

static void *reads_destination(void *unused) {
    return decoded[5] == OLD ? NULL : unused;
}

/* Decodes while the other thread runs. No lock orders the two. */
static int raced(void *(*other)(void *)) {
    pthread_t thread;
    memcpy(shared, DIGITS, sizeof shared);
    if (pthread_create(&thread, NULL, other, NULL) != 0) return 2;
    struct faster_hex_answer told = faster_hex_decode(shared, sizeof shared, decoded, sizeof decoded);
    pthread_join(thread, NULL);
    return told.status == FASTER_HEX_DONE ? 0 : 3;
}

int main(int words, char **word) {
    if (words < 2) return 2;
    if (strcmp(word[1], "race-source") == 0) return raced(writes_source);
    if (strcmp(word[1], "race-destination") == 0) return raced(reads_destination);
    bool is_short = strcmp(word[1], "short-destination") == 0;
    char *bytes = malloc(is_short ? 4 : 24), *digits = malloc(4);
    if (bytes == NULL || digits == NULL) return 2;
    int status = made(word[1], bytes, digits);
    free(bytes);
    if (strcmp(word[1], "freed") != 0) free(digits);
    return status;
}
