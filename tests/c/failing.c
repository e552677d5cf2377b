/* Injects failures into fhex.c, by `ld --wrap`. With FAILS='NAME NUMBER REASON' in the environment, the call of this
 * name and number fails with the errno REASON. If REASON is 0, it transfers nothing. With PIECE, a read or a write
 * transfers at most PIECE bytes. With ADVISED, that file gets a line for each call of madvise: the length, the advice
 * and the result. With CALLED, that file gets a line for each read and each write: its name, the length and the
 * result. */
#include <errno.h>
#include <stdbool.h>
#include <stdio.h>
#include <stdlib.h>
#include <string.h>
#include <unistd.h>

ssize_t __real_read(int file, void *to, size_t length);
ssize_t __real_write(int file, const void *from, size_t length);
void *__real_malloc(size_t size);
void *__real_realloc(void *at, size_t size);
int __real_madvise(void *at, size_t length, int advice);

static bool fails(const char *call) {
    static int made;
    char name[16];
    int number, reason;
    const char *told = getenv("FAILS");
    if (!told || sscanf(told, "%15s %d %d", name, &number, &reason) != 3) return false;
    if (strcmp(name, call) != 0 || ++made != number) return false;
    errno = reason;
    return true;
}

static size_t piece_of(size_t length) {
    const char *told = getenv("PIECE");
    size_t most = told ? strtoul(told, NULL, 10) : length;
    return length < most ? length : most;
}

static ssize_t called(const char *call, size_t length, ssize_t answer) {
    const char *name = getenv("CALLED");
    FILE *file = name ? fopen(name, "a") : NULL;
    if (file) {
        fprintf(file, "%s %zu %zd\n", call, length, answer);
        fclose(file);
    }
    return answer;
}

ssize_t __wrap_read(int file, void *to, size_t length) {
    if (fails("read")) return errno ? -1 : 0;
    return called("read", length, __real_read(file, to, piece_of(length)));
}

ssize_t __wrap_write(int file, const void *from, size_t length) {
    if (fails("write")) return errno ? -1 : 0;
    return called("write", length, __real_write(file, from, piece_of(length)));
}

void *__wrap_malloc(size_t size) {
    return fails("malloc") ? NULL : __real_malloc(size);
}

void *__wrap_realloc(void *at, size_t size) {
    return fails("realloc") ? NULL : __real_realloc(at, size);
}

int __wrap_madvise(void *at, size_t length, int advice) {
    int answer = fails("madvise") ? -1 : __real_madvise(at, length, advice);
    const char *name = getenv("ADVISED");
    FILE *file = name ? fopen(name, "a") : NULL;
    if (file) {
        fprintf(file, "%zu %d %d\n", length, advice, answer);
        fclose(file);
    }
    return answer;
}
