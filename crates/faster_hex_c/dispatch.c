/* The calls of faster_hex.h. Each runs a build in generated/, which was compiled from proved code. This file itself
 * is not proved.
 *
 * For x86-64 there are five builds. A call uses the widest one that has the call and that the processor and the
 * system can run. For aarch64 there is one build. Where assembly.h finds none, the calls are those of portable.h.
 *
 * A constructor writes the level of the processor once. A call that is made before that, for example by another
 * constructor, uses the baseline build x86-64, which each of these processors can run. The calls choose by branches
 * and not by pointers, so that a linker can leave out the calls that a program does not make. */
#include "assembly.h"
#include "faster_hex.h"
#if defined FASTER_HEX_X86_64 || defined FASTER_HEX_AARCH64
typedef struct faster_hex_answer answer;
#else
#include "portable.h"
#endif

/* The name of a build's call. It has the version, so that no other version in the program has the same name.
 * builds.S adds the end of the name, and says why. */
#ifdef FASTER_HEX_UNPROVED
#define JOIN(major, minor, patch, name) faster_hex_##major##_##minor##_##patch##_##name##_of_c_unproved
#else
#define JOIN(major, minor, patch, name) faster_hex_##major##_##minor##_##patch##_##name##_of_c
#endif
#define EXPAND(major, minor, patch, name) JOIN(major, minor, patch, name)
#define OF(build, call) \
    EXPAND(FASTER_HEX_VERSION_MAJOR, FASTER_HEX_VERSION_MINOR, FASTER_HEX_VERSION_PATCH, build##_##call)
/* A build is called by the convention of System V, on Windows too. Its calls are hidden. A DLL needs no mark for
 * this, because it exports only what faster_hex.def names.
 *
 * The calls of faster_hex.h are hidden too, unless FASTER_HEX_EXPORTED is defined, as for our shared library. Another
 * shared library that contains them would otherwise export them, and a program that loads it would make its calls
 * there, instead of in the program's own copy. */
#if defined __ELF__ || defined __MACH__
#define BUILD __attribute__((visibility("hidden")))
#ifdef FASTER_HEX_EXPORTED
#define PUBLIC __attribute__((visibility("default")))
#else
#define PUBLIC __attribute__((visibility("hidden")))
#endif
#else
#define BUILD __attribute__((sysv_abi))
#define PUBLIC
#endif

#ifdef FASTER_HEX_X86_64
#include <cpuid.h>
#include <stdatomic.h>

/* The words that `cpuid` and `xgetbv` return. Those of a leaf above the highest one have no meaning. */
struct processor {
    unsigned highest;          /* leaf 0, eax */
    unsigned basic;            /* leaf 1, ecx */
    unsigned wide;             /* leaf 7, ebx */
    unsigned permutes;         /* leaf 7, ecx */
    unsigned highest_extended; /* leaf 0x80000000, eax */
    unsigned extended;         /* leaf 0x80000001, ecx */
    unsigned saved;            /* the registers that the system saves, or 0 if it does not tell */
};

static bool has(unsigned word, unsigned bits) {
    return (word & bits) == bits;
}

/* The level of x86-64 that a processor and its system have, from 1 to 4, or 5 for level 4 with AVX-512 VBMI. */
static unsigned char level_of(struct processor it) {
    unsigned basic = it.highest >= 1 ? it.basic : 0, wide = it.highest >= 7 ? it.wide : 0;
    unsigned extended = it.highest_extended >= 0x80000001 ? it.extended : 0;
    if (!has(basic, bit_SSE3 | bit_SSSE3 | bit_SSE4_1 | bit_SSE4_2 | bit_POPCNT | bit_CMPXCHG16B)) return 1;
    if (!has(extended, bit_LAHF_LM)) return 1;
    if (!has(basic, bit_FMA | bit_MOVBE | bit_OSXSAVE | bit_AVX | bit_F16C)) return 2;
    if (!has(wide, bit_AVX2 | bit_BMI | bit_BMI2) || !has(extended, bit_LZCNT)) return 2;
    if (!has(it.saved, 0x06)) return 2; /* the registers of SSE and AVX */
    if (!has(wide, bit_AVX512F | bit_AVX512DQ | bit_AVX512CD | bit_AVX512BW | bit_AVX512VL)) return 3;
    if (!has(it.saved, 0xe0)) return 3; /* those of AVX-512 */
    return has(it.permutes, bit_AVX512VBMI) ? 5 : 4;
}

static struct processor processor(void) {
    struct processor it = { 0 };
    unsigned a, b, c, d;
    __cpuid(0, it.highest, b, c, d);
    __cpuid(1, a, b, it.basic, d);
    __cpuid_count(7, 0, a, it.wide, it.permutes, d);
    __cpuid(0x80000000, it.highest_extended, b, c, d);
    __cpuid(0x80000001, a, b, it.extended, d);
    if (has(it.basic, bit_OSXSAVE)) __asm__("xgetbv" : "=a"(it.saved), "=d"(d) : "c"(0));
    return it;
}

/* It is 0 until the constructor has asked the processor. */
static atomic_uchar level;

__attribute__((constructor)) static void raise_level(void) {
    level = level_of(processor());
}

/* The names of the builds, by their levels. The texts are in one array, because pointers to them would have to be
 * written when a program is loaded. */
static const char *chosen_build(void) {
    static const char names[][16] = { "x86-64", "x86-64", "x86-64-v2", "x86-64-v3", "x86-64-v4", "x86-64-vbmi" };
    return names[atomic_load_explicit(&level, memory_order_relaxed)];
}

/* Defines `chosen_CALL`, which makes a call by the build for the processor. The branch for level 3 is the first
 * one, so that processors without AVX-512 do not pay for the branches for levels 4 and 5. If a call has no builds for
 * these two levels, it has no branches for them, and all three levels use the build for level 3. */
#define CHOSEN(answer, call, parameters, arguments, widest)                       \
    BUILD answer OF(x86_64, call) parameters;                                     \
    BUILD answer OF(x86_64_v2, call) parameters;                                  \
    BUILD answer OF(x86_64_v3, call) parameters;                                  \
    DECLARED_TO_##widest(answer, call, parameters)                                \
    static answer chosen_##call parameters {                                      \
        unsigned char known = atomic_load_explicit(&level, memory_order_relaxed); \
        bool is_3 = widest == 3 ? known >= 3 : known == 3;                        \
        if (__builtin_expect(is_3, 1)) return OF(x86_64_v3, call) arguments;      \
        CHOSEN_TO_##widest(call, arguments)                                       \
        if (known == 2) return OF(x86_64_v2, call) arguments;                     \
        return OF(x86_64, call) arguments;                                        \
    }
#define DECLARED_TO_3(answer, call, parameters)
#define CHOSEN_TO_3(call, arguments)
#define DECLARED_TO_5(answer, call, parameters) \
    BUILD answer OF(x86_64_v4, call) parameters; \
    BUILD answer OF(x86_64_vbmi, call) parameters;
#define CHOSEN_TO_5(call, arguments)                                                 \
    if (__builtin_expect(known == 5, 1)) return OF(x86_64_vbmi, call) arguments;     \
    if (__builtin_expect(known == 4, 1)) return OF(x86_64_v4, call) arguments;
#elif defined FASTER_HEX_AARCH64
#define CHOSEN(answer, call, parameters, arguments, widest) \
    BUILD answer OF(aarch64, call) parameters;              \
    static answer chosen_##call parameters {                \
        return OF(aarch64, call) arguments;                 \
    }

static const char *chosen_build(void) {
    return "aarch64";
}
#else
#define CHOSEN(answer, call, parameters, arguments, widest) \
    static answer chosen_##call parameters {                \
        return portable_##call arguments;                   \
    }

static const char *chosen_build(void) {
    return "portable";
}
#endif

/* Sanitizers do not see what assembly reads and writes. This code tells them which bytes a call has read and
 * written. */
#ifdef __has_feature
#define SANITIZES(what) __has_feature(what)
#else
#define SANITIZES(what) 0
#endif
#if defined __SANITIZE_ADDRESS__ || SANITIZES(address_sanitizer)
void __asan_loadN(void *, intptr_t);
void __asan_storeN(void *, intptr_t);
#define READ(src, len) __asan_loadN((void *)src, (intptr_t)len)
#define WROTE(dst, len) __asan_storeN(dst, (intptr_t)len)
#elif SANITIZES(memory_sanitizer)
void __msan_check_mem_is_initialized(const volatile void *, size_t);
void __msan_unpoison(const volatile void *, size_t);
#define READ(src, len) __msan_check_mem_is_initialized(src, len)
#define WROTE(dst, len) __msan_unpoison(dst, len)
#elif defined __SANITIZE_THREAD__ || SANITIZES(thread_sanitizer)
void __tsan_read_range(void *, intptr_t);
void __tsan_write_range(void *, intptr_t);
#define READ(src, len) __tsan_read_range((void *)src, (intptr_t)len)
#define WROTE(dst, len) __tsan_write_range(dst, (intptr_t)len)
#endif
#ifdef READ
static answer seen_answer(answer it, const void *src, size_t len, void *dst) {
    bool is_done = it.status == FASTER_HEX_DONE;
    if (len > 0 && (is_done || it.status == FASTER_HEX_INVALID_CHAR)) READ(src, len);
    if (dst != NULL && it.number > 0 && is_done) WROTE(dst, it.number);
    return it;
}

static bool seen_bool(bool it, const void *src, size_t len, void *dst) {
    seen_answer((answer){ 0, FASTER_HEX_DONE, 0 }, src, len, dst);
    return it;
}
#else
#define seen_answer(it, src, len, dst) it
#define seen_bool(it, src, len, dst) it
#endif

/* Defines a call of faster_hex.h. `widest` is the level of the widest build that has it. */
#define CALL(answer, call, parameters, arguments, dst, widest)          \
    CHOSEN(answer, call, parameters, arguments, widest)                 \
    PUBLIC answer faster_hex_##call parameters {                        \
        return seen_##answer(chosen_##call arguments, src, len, dst);   \
    }

CALL(bool, check, (const void *src, size_t len), (src, len), NULL, 5)
CALL(bool, check_with_case, (const void *src, size_t len, uint8_t policy), (src, len, policy), NULL, 5)
CALL(answer, first_invalid, (const void *src, size_t len, uint8_t policy), (src, len, policy), NULL, 3)
CALL(answer, encode, (const void *src, size_t len, void *dst, size_t room, bool upper),
     (src, len, dst, room, upper), dst, 3)
CALL(answer, decode, (const void *src, size_t len, void *dst, size_t room), (src, len, dst, room), dst, 5)
CALL(answer, decode_with_case, (const void *src, size_t len, void *dst, size_t room, uint8_t policy),
     (src, len, dst, room, policy), dst, 5)
CALL(answer, decode_spaced, (const void *src, size_t len, void *dst, size_t room, uint8_t policy),
     (src, len, dst, room, policy), dst, 5)
CALL(answer, encode_grouped,
     (const void *src, size_t len, void *dst, size_t room, bool upper, size_t every, uint8_t sep),
     (src, len, dst, room, upper, every, sep), dst, 3)
CALL(answer, decode_grouped,
     (const void *src, size_t len, void *dst, size_t room, uint8_t policy, size_t every, uint8_t sep),
     (src, len, dst, room, policy, every, sep), dst, 3)

PUBLIC const char *faster_hex_build(void) {
    return chosen_build();
}

PUBLIC const char *faster_hex_version(void) {
#ifdef FASTER_HEX_UNPROVED
    return FASTER_HEX_VERSION "+unproved";
#else
    return FASTER_HEX_VERSION;
#endif
}

/* The texts stand in one array, because pointers to them would have to be written when a program is loaded. */
PUBLIC const char *faster_hex_status_text(uint8_t status) {
    static const char texts[][32] = {
        "done", "hex input length must be even", "output is too small", "invalid hex byte",
        "encoded length overflow", "unknown policy", "not a group", "invalid length of grouped hex",
        "unknown status",
    };
    return texts[status <= FASTER_HEX_BAD_LENGTH ? status : FASTER_HEX_BAD_LENGTH + 1];
}
