// Times the calls of generated/ and other calls, alternately in one run. For each call and each size it prints a line
// with the call, the number of decoded bytes and the least time in nanoseconds, with tabs between them. Before that
// it checks the answers. bench/run builds it.
#include <faster_hex.h>
#include <stdio.h>
#include <stdlib.h>
#include <string.h>
#include <time.h>

// The rounds of a size are spread over the whole run, because a shared machine is slow for some seconds at a time.
#define PASSES 20
// Each pass uses another place of the stack, PLACE bytes below the last one. Twenty passes cover a page.
#define PLACE 208
#define PAGE 4096
#define ROUNDS 12
#define TURNS_NS 10000
#define LARGEST 65536
#define OLD 0xa5
#define MOST_SIZES 160

enum kind { CHECK, ENCODE, DECODE, WRITE, READ, LINES, KINDS };

// The sizes, in decoded bytes, of grouped calls, of texts in lines, and of the other calls, which main fills in.
static const size_t few[] = {6, 64, LARGEST, 0}, pages[] = {PAGE, 0};
static size_t swept[MOST_SIZES + 1];

struct task {
    const uint8_t *src;
    size_t len;
    uint8_t *dst;
    size_t room;
};

// The calls of a build: those without groups, for lines of 30 and 38 bytes, and for groups of 1 and 16 bytes.
#define OF(build, call) faster_hex_1_0_0_x86_64_##build##_##call
#define GROUPED(build, n) \
    CALL(WRITE, build##_write_##n, OF(build, encode_grouped)(src, len, dst, room, false, n, ':').number) \
    CALL(READ, build##_read_##n, OF(build, decode_grouped)(src, len, dst, room, 0, n, ':').number)
#define SPACED(build, n) \
    CALL(LINES, build##_lines_##n, OF(build, decode_spaced)(src, len, dst, room, 0).number)
#define DECODING(build) \
    SPACED(build, 30) SPACED(build, 38) \
    CALL(CHECK, build##_check, OF(build, check)(src, len)) \
    CALL(DECODE, build##_decode, OF(build, decode)(src, len, dst, room).number)
#define OURS(build) \
    DECODING(build) \
    CALL(ENCODE, build##_encode, OF(build, encode)(src, len, dst, room, false).number) \
    GROUPED(build, 1) GROUPED(build, 16)
// Other calls, which all have the same type: those of the crate `faster-hex`, to a kernel or to a public function, and
// those of a plan in a build.
typedef size_t other(const uint8_t *src, size_t len, uint8_t *dst, size_t room);
#define DONE_BY(name) ({ other name; name(src, len, dst, room); })
#define OTHER_DECODING(side, name) \
    CALL(CHECK, side##_check, DONE_BY(name##_check)) \
    CALL(DECODE, side##_decode, DONE_BY(name##_decode))
#define OTHER(side, name) \
    OTHER_DECODING(side, name) \
    CALL(ENCODE, side##_encode, DONE_BY(name##_encode))
#define RUST_DECODING(side) OTHER_DECODING(side, rust_##side)
#define RUST(side) OTHER(side, rust_##side)
#define PLAN(side) OTHER(side, plan_##side)
#define PLAN_DECODING(side) OTHER_DECODING(side, plan_##side)
// The loops of loops.c.
#define LOOPS(n) \
    CALL(WRITE, loop_write_##n, write_by_##n(src, len, dst)) \
    CALL(READ, loop_read_##n, read_by_##n(src, len, dst))
// The builds for AVX-512 have only these calls, and `faster-hex` has code for AVX-512 only for these.
#ifdef WIDEST
#ifdef VBMI
#define EACH_VBMI DECODING(vbmi)
#else
#define EACH_VBMI
#endif
#define EACH_WIDEST DECODING(v4) EACH_VBMI RUST_DECODING(avx512) RUST_DECODING(slices_v4)
#define PLANS_WIDEST PLAN_DECODING(v4_plain_32) PLAN_DECODING(v4_plain_64)
#else
#define EACH_WIDEST
#define PLANS_WIDEST
#endif
#ifdef PLANS
#define EACH \
    PLAN(v1_scalar) PLAN(v1_plain) PLAN(v2_avx2) PLAN(v2_plain) PLAN(v3_avx2) PLAN(v3_plain) PLAN(v3_plain_32) \
    PLANS_WIDEST
#else
#define EACH \
    OURS(v2) OURS(v3) RUST(sse41) RUST(avx2) RUST(slices_v2) RUST(slices_v3) EACH_WIDEST LOOPS(1) LOOPS(16)
#endif

#define DECLARED_DECODING(build) \
    __typeof__(faster_hex_check) OF(build, check); \
    __typeof__(faster_hex_decode) OF(build, decode); \
    __typeof__(faster_hex_decode_spaced) OF(build, decode_spaced);
#define DECLARED(build) \
    DECLARED_DECODING(build) \
    __typeof__(faster_hex_encode) OF(build, encode); \
    __typeof__(faster_hex_encode_grouped) OF(build, encode_grouped); \
    __typeof__(faster_hex_decode_grouped) OF(build, decode_grouped);
DECLARED(v2)
DECLARED(v3)
DECLARED_DECODING(v4)
DECLARED_DECODING(vbmi)
typedef size_t grouping(const uint8_t *src, size_t len, uint8_t *dst);
grouping write_by_1, write_by_16, read_by_1, read_by_16;

// Each call has its own loop, so that it is a direct call. How well a processor predicts an indirect call depends on
// what else the machine does.
#define CALL(kind, name, made) \
    static __attribute__((noinline)) size_t name##_loop(const struct task *task, long turns) { \
        const uint8_t *src = task->src; \
        uint8_t *dst = task->dst; \
        size_t len = task->len, room = task->room, sum = 0; \
        (void)len, (void)dst, (void)room; \
        for (long i = 0; i < turns; i++) { \
            sum += made; \
        } \
        return sum; \
    }
EACH
#undef CALL

struct call {
    enum kind kind;
    const char *name;
    size_t (*loop)(const struct task *task, long turns);
};

#define CALL(kind, name, made) {kind, #name, name##_loop},
static const struct call calls[] = {EACH};
#define CALLS (sizeof calls / sizeof *calls)

static double least[CALLS][MOST_SIZES];
static volatile size_t sink;

// The bytes, and their text in lowercase and in mixed case.
static uint8_t bytes[LARGEST], lower[2 * LARGEST], mixed[2 * LARGEST];
static uint8_t out[3 * LARGEST + PAGE] __attribute__((aligned(64)));

static const size_t *sizes_of(enum kind kind) {
    return kind == LINES ? pages : kind == WRITE || kind == READ ? few : swept;
}

// The next pseudo-random number. The numbers are the same in each run.
static uint32_t next(void) {
    static uint64_t state = 1;
    state = state * 6364136223846793005 + 1442695040888963407;
    return state >> 32;
}

static void fill(void) {
    for (size_t i = 0; i < LARGEST; i++) {
        const char *digits = i % 2 ? "0123456789ABCDEF" : "0123456789abcdef";
        bytes[i] = next() >> 24;
        mixed[2 * i] = digits[bytes[i] / 16];
        mixed[2 * i + 1] = digits[bytes[i] % 16];
        lower[2 * i] = "0123456789abcdef"[bytes[i] / 16];
        lower[2 * i + 1] = "0123456789abcdef"[bytes[i] % 16];
    }
}

// Puts a separator between groups of `every` bytes of a text, and returns its new length.
static size_t group(uint8_t *to, const uint8_t *text, size_t size, size_t every, uint8_t sep) {
    size_t at = 0;
    for (size_t i = 0; i < size; i++) {
        if (i && i % every == 0) {
            to[at++] = sep;
        }
        memcpy(to + at, text + 2 * i, 2);
        at += 2;
    }
    return at;
}

// Returns the number of bytes in a group or line, which is at the end of the name of the call.
static size_t every_of(const struct call *call) {
    return strtoul(strrchr(call->name, '_') + 1, NULL, 10);
}

// Returns a task with the text in mixed case, in groups. The texts of fewer bytes are prefixes of one text.
static struct task grouped(size_t every, uint8_t sep, size_t size) {
    static uint8_t texts[39][3 * LARGEST];
    if (!texts[every][0]) {
        group(texts[every], mixed, LARGEST, every, sep);
    }
    return (struct task){texts[every], 2 * size + (size - 1) / every, out, size};
}

static struct task task_of(const struct call *call, size_t size) {
    switch (call->kind) {
    case ENCODE: return (struct task){bytes, size, out, 2 * size};
    case WRITE: return (struct task){bytes, size, out, 3 * size};
    case READ: return grouped(every_of(call), ':', size);
    case LINES: return grouped(every_of(call), '\n', size);
    default: return (struct task){mixed, 2 * size, out, size};
    }
}

// Returns whether a call gives the right answer and writes nothing else.
static bool is_right(const struct call *call, size_t size) {
    static uint8_t wanted[3 * LARGEST];
    struct task task = task_of(call, size);
    memset(out, OLD, sizeof out);
    size_t answer = call->loop(&task, 1);
    switch (call->kind) {
    case CHECK: return answer == 1;
    case ENCODE: return answer == 2 * size && !memcmp(out, lower, answer);
    case WRITE: return answer == group(wanted, lower, size, every_of(call), ':') && !memcmp(out, wanted, answer);
    default: return answer == size && !memcmp(out, bytes, size);
    }
}

// Returns the nanoseconds that `turns` calls take, one after the other.
static double spent(const struct call *call, const struct task *task, long turns) {
    struct timespec start, end;
    clock_gettime(CLOCK_MONOTONIC, &start);
    sink = call->loop(task, turns);
    clock_gettime(CLOCK_MONOTONIC, &end);
    return (end.tv_sec - start.tv_sec) * 1e9 + (end.tv_nsec - start.tv_nsec);
}

// Times the calls of one kind alternately, so that all of them meet the same state of the machine. A turn of a call is
// so long that the time of reading the clock does not matter. It runs once before it is timed, because a processor may
// first have to power up its wide vectors. Each round has another order, because a processor may be slower for a while
// after wide vectors, which would otherwise always affect the same calls.
static void measure(enum kind kind, size_t at_size, size_t place) {
    struct task tasks[CALLS];
    size_t order[CALLS], count = 0;
    long turns[CALLS];
    for (size_t at = 0; at < CALLS; at++) {
        if (calls[at].kind == kind) {
            order[count++] = at;
            tasks[at] = task_of(&calls[at], sizes_of(kind)[at_size]);
            tasks[at].dst += place;
            turns[at] = 1;
            while (spent(&calls[at], &tasks[at], turns[at]) < TURNS_NS) {
                turns[at] *= 2;
            }
        }
    }
    for (int round = 0; round < ROUNDS; round++) {
        for (size_t left = count; left > 0; left--) {
            size_t pick = next() % left, at = order[pick];
            order[pick] = order[left - 1];
            order[left - 1] = at;
            spent(&calls[at], &tasks[at], turns[at]);
            double time = spent(&calls[at], &tasks[at], turns[at]) / turns[at];
            if (least[at][at_size] == 0 || time < least[at][at_size]) {
                least[at][at_size] = time;
            }
        }
    }
}

// Measures with the stack `below` bytes lower. A call with a buffer on the stack took up to a seventh longer for some
// places of the stack, and without this function the place would be the same for a whole run. A likely cause is that a
// load waits for a store whose address has the same lowest twelve bits. So the output too is moved within a page, by a
// multiple of 64: otherwise its address would share these bits with that of each source.
static void measure_below(size_t below, enum kind kind, size_t at_size) {
    volatile char room[below];
    room[0] = 0;
    measure(kind, at_size, below % PAGE / 64 * 64);
    (void)room[0];
}

static void check(const struct call *call) {
    for (const size_t *size = sizes_of(call->kind); *size; size++) {
        if (!is_right(call, *size)) {
            fprintf(stderr, "%s gives something else than it should on %zu bytes\n", call->name, *size);
            exit(1);
        }
    }
}

// The sizes are every length up to 64, since short sources have code paths of their own, every second length up to 160,
// every fourth up to 320, and eight more.
static void set_swept_sizes(void) {
    static const size_t more[] = {384, 512, 1024, 2048, 4096, 8192, 16384, LARGEST};
    size_t count = 0;
    for (size_t size = 1; size <= 320; size += size < 64 ? 1 : size < 160 ? 2 : 4) {
        swept[count++] = size;
    }
    memcpy(swept + count, more, sizeof more);
}

int main(void) {
    fill();
    set_swept_sizes();
    for (size_t at = 0; at < CALLS; at++) {
        check(&calls[at]);
    }
    for (int pass = 0; pass < PASSES; pass++) {
        for (enum kind kind = 0; kind < KINDS; kind++) {
            for (size_t at = 0; sizes_of(kind)[at]; at++) {
                measure_below(PLACE * (pass + 1), kind, at);
            }
        }
    }
    for (size_t at = 0; at < CALLS; at++) {
        const size_t *sizes = sizes_of(calls[at].kind);
        for (size_t size = 0; sizes[size]; size++) {
            printf("%s\t%zu\t%.2f\n", calls[at].name, sizes[size], least[at][size]);
        }
    }
    return 0;
}
