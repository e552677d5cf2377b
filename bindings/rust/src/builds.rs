//! The assembly in `generated/`. Each function here calls the build that fits the processor. The names in the
//! assembly have the version, so that a program may have two versions. The C library has names of its own for the same
//! assembly.

use core::arch::global_asm;
#[cfg(target_arch = "x86_64")]
use core::{
    mem::transmute,
    sync::atomic::{AtomicPtr, Ordering::Relaxed},
};

use super::Answer;

#[cfg(target_arch = "x86_64")]
#[path = "level.rs"]
mod level;

/// The names of the builds, by their levels. There is no level 0.
#[cfg(target_arch = "x86_64")]
const NAMES: [&str; 6] = ["", "x86-64", "x86-64-v2", "x86-64-v3", "x86-64-v4", "x86-64-vbmi"];

/// Returns the name of the widest build that calls use.
pub fn name() -> &'static str {
    #[cfg(target_arch = "x86_64")]
    return NAMES[usize::from(level::find())];
    #[cfg(target_arch = "aarch64")]
    return "aarch64";
}

/// Assembles the macros of a format of object files, and then all builds for the target's architecture.
macro_rules! assemble {
    ($macros:literal) => {
        #[cfg(target_arch = "aarch64")]
        assemble!(raw: $macros "aarch64.s");
        #[cfg(target_arch = "x86_64")]
        assemble!(att_syntax, raw: $macros "x86-64.s" "x86-64-v2.s" "x86-64-v3.s" "x86-64-v4.s" "x86-64-vbmi.s");
    };
    ($($option:ident),*: $($file:literal)*) => {
        global_asm!(
            $(include_str!(concat!("../../../generated/", $file)),)*
            "hex_finish",
            options($($option),*)
        );
    };
}

#[cfg(windows)]
assemble!("coff.inc");
#[cfg(target_vendor = "apple")]
assemble!("macho.inc");
#[cfg(not(any(windows, target_vendor = "apple")))]
assemble!("elf.inc");

// The names in the assembly are hidden, so only the library that has the assembly finds them. But a call is
// inlined into other crates, which may be linked with a `dylib` of this one. So it reads the address of its
// build from a static.
macro_rules! calls {
    ($($call:ident($($word:ident: $kind:ty),*) -> $answer:ty, $v4:literal $v5:literal;)*) => { $(
        /// Makes the call in the build for aarch64.
        ///
        /// # Safety
        ///
        /// `src` points to `len` bytes that may be read. `dst`, of a call that has one, points to `room` bytes that
        /// may be written and are no part of the source. If a length is 0, its pointer is not used.
        #[cfg(target_arch = "aarch64")]
        #[inline]
        pub unsafe fn $call($($word: $kind),*) -> $answer {
            extern "C" {
                #[link_name = concat!("faster_hex_1_0_0_aarch64_", stringify!($call))]
                fn only($($word: $kind),*) -> $answer;
            }
            static BUILD: unsafe extern "C" fn($($kind),*) -> $answer = only;
            // SAFETY: the caller promises what the build needs.
            BUILD($($word),*)
        }

        /// Makes the call in the build for the processor.
        ///
        /// # Safety
        ///
        /// `src` points to `len` bytes that may be read. `dst`, of a call that has one, points to `room` bytes that
        /// may be written and are no part of the source. If a length is 0, its pointer is not used.
        #[cfg(target_arch = "x86_64")]
        #[inline]
        pub unsafe fn $call($($word: $kind),*) -> $answer {
            extern "sysv64" {
                #[link_name = concat!("faster_hex_1_0_0_x86_64_", stringify!($call))]
                fn v1($($word: $kind),*) -> $answer;
                #[link_name = concat!("faster_hex_1_0_0_x86_64_v2_", stringify!($call))]
                fn v2($($word: $kind),*) -> $answer;
                #[link_name = concat!("faster_hex_1_0_0_x86_64_v3_", stringify!($call))]
                fn v3($($word: $kind),*) -> $answer;
                #[link_name = concat!("faster_hex_1_0_0_x86_64_", $v4, "_", stringify!($call))]
                fn v4($($word: $kind),*) -> $answer;
                #[link_name = concat!("faster_hex_1_0_0_x86_64_", $v5, "_", stringify!($call))]
                fn v5($($word: $kind),*) -> $answer;
            }
            type Build = unsafe extern "sysv64" fn($($kind),*) -> $answer;
            // The address of a `Build`. The first call replaces it by the address of the build for the processor.
            static BUILD: AtomicPtr<()> = AtomicPtr::new(first as *const () as *mut ());

            /// Finds the build for the processor, and makes the call in it.
            ///
            /// # Safety
            ///
            /// The same as for the function around it.
            #[cold]
            #[inline(never)]
            unsafe extern "sysv64" fn first($($word: $kind),*) -> $answer {
                let build: Build = match level::find() {
                    5 => v5,
                    4 => v4,
                    3 => v3,
                    2 => v2,
                    _ => v1,
                };
                BUILD.store(build as *mut (), Relaxed);
                // SAFETY: the caller promises what the build needs, and the processor has its instructions.
                build($($word),*)
            }

            // SAFETY: `BUILD` has the address of `first` or of a build, and each of them is a `Build`. The caller
            // promises what it needs.
            transmute::<*mut (), Build>(BUILD.load(Relaxed))($($word),*)
        }
    )* };
}

// The last two words of each line name the builds for levels 4 and 5.
calls! {
    check(src: *const u8, len: usize) -> bool, "v4" "vbmi";
    check_lower(src: *const u8, len: usize) -> bool, "v4" "vbmi";
    check_upper(src: *const u8, len: usize) -> bool, "v4" "vbmi";
    encode(src: *const u8, len: usize, dst: *mut u8, room: usize, upper: bool) -> Answer, "v3" "v3";
    decode(src: *const u8, len: usize, dst: *mut u8, room: usize) -> Answer, "v4" "vbmi";
    decode_with_case(src: *const u8, len: usize, dst: *mut u8, room: usize, policy: u8) -> Answer, "v4" "vbmi";
    decode_spaced(src: *const u8, len: usize, dst: *mut u8, room: usize, policy: u8) -> Answer, "v4" "vbmi";
}
