/* Decides whether there is assembly for the processor and the system. FASTER_HEX_X86_64 stands for the five builds
 * for x86-64, and FASTER_HEX_AARCH64 for the one for aarch64. If neither is defined, the calls are those of
 * portable.h. Whoever defines FASTER_HEX_PORTABLE gets these on any processor.
 *
 * C, assembly, CMake and the Makefile ask this file. bindings/rust/src/lib.rs says the same once more for Rust.
 * The systems are Linux, FreeBSD, NetBSD, macOS, and Windows by mingw, as docs/packaging.md says. */
#if !defined FASTER_HEX_PORTABLE && !defined __ILP32__ &&                                                  \
    ((defined __linux__ && !defined __ANDROID__) || defined __FreeBSD__ || defined __NetBSD__ ||           \
     defined __ENVIRONMENT_MAC_OS_X_VERSION_MIN_REQUIRED__ || (defined __MINGW32__ && defined __x86_64__))
#ifdef __x86_64__
#define FASTER_HEX_X86_64 1
#elif defined __aarch64__ && defined __ARM_NEON && !defined __AARCH64EB__
#define FASTER_HEX_AARCH64 1
#endif
#endif
