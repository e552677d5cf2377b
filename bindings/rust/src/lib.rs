//! Turns bytes into hex digits and back, with the names and signatures of the crate `faster-hex` 1.0.0 by other
//! authors, which this page calls *the original*.
//!
//! The code that tests, encodes and decodes is assembly, which was compiled from sources that are proved for every
//! input. The Rust code around it is tested, and not proved. [Some targets](#platforms) have no assembly.
//!
//! ```
//! use faster_hex::{hex_decode, hex_encode};
//!
//! let mut digits = [0; 10];
//! let text = hex_encode(b"hello", &mut digits)?;
//! assert_eq!(text, "68656c6c6f");
//!
//! let mut bytes = [0; 5];
//! assert_eq!(hex_decode(text.as_bytes(), &mut bytes)?, b"hello");
//! # Ok::<(), faster_hex::Error>(())
//! ```
//!
//! # Which call
//!
//! | You want | Call |
//! |---|---|
//! | digits in a buffer | [`hex_encode`], [`hex_encode_upper`] |
//! | bytes in a buffer | [`hex_decode`], [`hex_decode_with_case`] |
//! | the same from digits with white space | [`hex_decode_spaced`], [`hex_decode_spaced_with_case`] |
//! | bytes in an array of a known length | [`hex_decode_array`], [`hex_decode_array_with_case`] |
//! | to print bytes as digits, with a width or `0x` | [`Hex`], by `{}`, `{:x}` or `{:X}` |
//! | to test digits, without decoding them | [`hex_check`], [`hex_check_with_case`] |
//! | digits in a new string (`alloc`) | `hex_string`, `hex_string_upper` |
//! | digits at the end of a string that you have (`alloc`) | `hex_append`, `hex_append_upper` |
//! | bytes in a new vector (`alloc`) | `hex_decode_vec`, `hex_decode_vec_with_case` |
//! | a field of a `serde` type (`serde`) | the modules below |
//! | to know whether keys may be handled on this processor | [`hex_build`] |
//!
//! A call that reads digits accepts lowercase and uppercase letters, also mixed. A call whose name ends with
//! `_with_case` has a parameter [`CheckCase`], which can permit only one case.
//!
//! The original does not have [`hex_decode_spaced`], [`hex_decode_spaced_with_case`] and [`hex_build`].
//!
//! # What the calls do
//!
//! - Each byte becomes two digits, in the order of the bytes. Leading zeros stay, because the digits
//!   are not read as a number.
//! - Decoding takes all of its source: an even number of digits. `0x`, white space, separators and everything else
//!   that is no digit are errors. Only [`hex_decode_spaced`] and [`hex_decode_spaced_with_case`] skip white space.
//!   You need not test the digits first.
//! - An empty source is valid.
//! - If several things are wrong, a call returns the [`Error`] that comes first in the order that its page lists.
//! - [`hex_check`] tests each byte, but not how many there are, so it accepts an odd number of digits.
//!
//! # Who owns what
//!
//! A call on a buffer borrows the source only while it runs. It writes to the front of the buffer, leaves the
//! rest unchanged, and returns the part that it wrote. That part borrows the buffer, not the source. After an
//! error the whole buffer is unchanged.
//!
//! New strings and vectors are yours. Each takes one allocation, and none if it is empty.
//! Appending keeps what the string has, grows it as `push_str` does, and returns the new part. If memory runs out,
//! the same happens as for a `Vec`. There is no [`Error`] for that.
//!
//! # Features
//!
//! | Feature | What it adds |
//! |---|---|
//! | none | calls on buffers and arrays, [`Hex`], [`Error`]; no dependency, no allocator, `no_std` |
//! | `alloc` | strings and vectors |
//! | `std`, the default | `alloc`, and the standard library |
//! | `serde` | `alloc`, and the modules below; it works without `std` |
//!
//! # Modules for `serde`
//!
//! A module's name follows `with` at a field: `#[serde(with = "faster_hex::nopfx_lowercase")]`. The bytes
//! become a string in every data format, also in binary ones.
//!
//! | Module | Prefix | Writes | Reads |
//! |---|---|---|---|
//! | `withpfx_ignorecase`, and the root, `faster_hex` | `0x` | lowercase | either case |
//! | `nopfx_ignorecase` | none | lowercase | either case |
//! | `withpfx_lowercase` | `0x` | lowercase | lowercase |
//! | `nopfx_lowercase` | none | lowercase | lowercase |
//! | `withpfx_uppercase` | `0x` | uppercase | uppercase |
//! | `nopfx_uppercase` | none | uppercase | uppercase |
//!
//! - The prefix is `0x`, never `0X`, and a module with a prefix requires it.
//! - `option_` before a name is for `Option`. `None` and an empty value are written differently. For a field that
//!   may be missing add `default`: `#[serde(default, with = "faster_hex::option_nopfx_lowercase")]`.
//! - `array` inside a module is for arrays: `#[serde(with = "faster_hex::nopfx_lowercase::array")]`.
//! - A field of any other type needs `AsRef<[u8]>` to be written, and is collected by `FromIterator<u8>`. For at most
//!   32 bytes write `deserialize_with = "faster_hex::nopfx_lowercase::deserialize_bounded::<32, _, _>"`, which fails
//!   before it decodes a longer value. It bounds the bytes, not what the data format or your type allocates.
//!
//! # Platforms
//!
//! There is assembly for x86-64 and aarch64 on Linux, FreeBSD, NetBSD and macOS, and for x86-64 on Windows with the
//! GNU toolchain. On all other targets, also on bare metal and under Miri, the calls are plain Rust, which is tested
//! and **not proved**.
//!
//! A *build* is the code for one kind of processor. On x86-64 the first call asks the processor which of five builds it
//! can run. All builds return the same results, but not all of them are for keys: [`hex_build`] names the build, and
//! says what was examined. The crate needs Rust 1.81 or later. One program may contain several versions of this crate,
//! and also the library for C.
//!
//! The README of the crate says how to use it in place of the original, and what the original has that this crate
//! lacks.
#![no_std]
#![warn(missing_docs)]

#[cfg(feature = "alloc")]
extern crate alloc;
#[cfg(any(feature = "std", test))]
extern crate std;

#[cfg(feature = "serde")]
mod adapters;
// The targets without assembly. This must say the same as crates/faster_hex_c/assembly.h, which decides for C.
#[cfg_attr(
    any(
        miri,
        faster_hex_portable,
        not(all(
            target_pointer_width = "64",
            target_endian = "little",
            any(target_arch = "x86_64", target_arch = "aarch64"),
            any(
                target_os = "linux",
                target_os = "freebsd",
                target_os = "netbsd",
                target_os = "macos",
                all(windows, target_env = "gnu", target_arch = "x86_64")
            )
        ))
    ),
    path = "portable.rs"
)]
mod calls;
mod decode;
mod encode;
mod error;
mod format;

#[cfg(feature = "serde")]
pub use crate::adapters::withpfx_ignorecase::{array, deserialize, deserialize_bounded, serialize};
#[cfg(feature = "serde")]
pub use crate::adapters::{
    nopfx_ignorecase, nopfx_lowercase, nopfx_uppercase, option_nopfx_ignorecase,
    option_nopfx_lowercase, option_nopfx_uppercase, option_withpfx_ignorecase,
    option_withpfx_lowercase, option_withpfx_uppercase, withpfx_ignorecase, withpfx_lowercase,
    withpfx_uppercase,
};
pub use crate::decode::{
    hex_check, hex_check_with_case, hex_decode, hex_decode_array, hex_decode_array_with_case,
    hex_decode_spaced, hex_decode_spaced_with_case, hex_decode_with_case, CheckCase,
};
#[cfg(feature = "alloc")]
pub use crate::decode::{hex_decode_vec, hex_decode_vec_with_case};
#[cfg(feature = "alloc")]
pub use crate::encode::{hex_append, hex_append_upper, hex_string, hex_string_upper};
pub use crate::encode::{hex_encode, hex_encode_upper};
pub use crate::error::Error;

/// Names the build that the calls use on this processor, so that a program can refuse to handle keys where nobody has
/// examined whether the crate is constant time. You need not make another call first.
///
/// The name is `x86-64`, `x86-64-v2`, `x86-64-v3` (AVX2), `x86-64-v4` (AVX-512), `x86-64-vbmi` (AVX-512 with VBMI),
/// `aarch64`, or `portable` (which is plain Rust). Later versions may have other builds, so read this page again before
/// you update. Encoding, which the builds for AVX-512 do not have, uses `x86-64-v3`. `x86-64` looks bytes up in tables,
/// so do not handle keys there.
///
/// The calls for keys are `hex_encode`, `hex_string`, `hex_decode`, `hex_decode_vec`, `hex_decode_array`, `hex_check`,
/// and their variants whose names end with `_with_case` or `_upper`. On Linux, the assembly that they run was examined
/// in `aarch64` and in the builds whose names begin with `x86-64-v`: encoding takes the same branches and uses the same
/// addresses for all bytes of one length, and so do checking and decoding for all valid digits of one length. The Rust
/// code around the assembly was tested only for `hex_string`, `hex_decode_vec`, `hex_check_with_case` and
/// `hex_decode_array`, on x86-64. If a digit is invalid, the time or the cache may show where and which it is.
///
/// ```
/// let build = faster_hex::hex_build();
/// let is_examined = build == "aarch64" || build.starts_with("x86-64-v");
/// let may_have_keys = cfg!(target_os = "linux") && is_examined;
/// # let _ = may_have_keys;
/// ```
#[must_use]
pub fn hex_build() -> &'static str {
    calls::build()
}
pub use crate::format::Hex;
