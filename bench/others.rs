//! Times encoding into a buffer and decoding from lowercase digits by our Rust crate, which is the crate `ours` here,
//! by our library for C, and by other libraries. Each decoding accepts both letter cases. OpenSSL encodes in uppercase,
//! all others in lowercase. Before it times a call, it checks what the call writes. It prints a line for each call,
//! library and number of decoded bytes: `encode by hex 0.4.3<TAB>bytes<TAB>ns`.
//!
//! A library is left out unless bench/run gives `--cfg` with its name.

use std::ffi::{CStr, c_char, c_int};
use std::hint::black_box;
use std::ptr::null_mut;

#[macro_use]
mod timing;
use timing::{Cell, LARGEST, LOOPS, Loop, Task};

/// What a call of our library for C returns.
#[repr(C)]
struct Answer {
    number: usize,
    status: u8,
    byte: u8,
}

#[link(name = "faster_hex", kind = "static")]
unsafe extern "C" {
    fn faster_hex_encode(src: *const u8, len: usize, dst: *mut u8, room: usize, upper: bool) -> Answer;
    fn faster_hex_decode(src: *const u8, len: usize, dst: *mut u8, room: usize) -> Answer;
}

#[cfg(sodium)]
#[link(name = "sodium")]
unsafe extern "C" {
    fn sodium_version_string() -> *const c_char;
    fn sodium_bin2hex(hex: *mut u8, room: usize, bytes: *const u8, len: usize) -> *mut c_char;
    fn sodium_hex2bin(
        bytes: *mut u8, room: usize, hex: *const u8, len: usize, ignored: *const c_char, written: *mut usize,
        end: *mut *const c_char,
    ) -> c_int;
}

#[cfg(crypto)]
#[link(name = "crypto")]
unsafe extern "C" {
    fn OpenSSL_version(kind: c_int) -> *const c_char;
    fn OPENSSL_buf2hexstr_ex(
        hex: *mut u8, room: usize, written: *mut usize, bytes: *const u8, len: usize, separator: c_char,
    ) -> c_int;
    fn OPENSSL_hexstr2buf_ex(
        bytes: *mut u8, room: usize, written: *mut usize, hex: *const u8, separator: c_char,
    ) -> c_int;
}

/// The name of a C library with its version.
fn named(library: &str, version: *const c_char) -> String {
    // SAFETY: the version is a text that ends with a zero and is never freed.
    format!("{library} {}", unsafe { CStr::from_ptr(version) }.to_str().unwrap())
}

/// A library has a condition, a module, a name, and two calls on the parts of a task.
macro_rules! libraries {
    ($(#[$when:meta] $module:ident($it:ident) $name:expr, encodes $encode:expr, decodes $decode:expr;)*) => {
        $(
            #[$when]
            mod $module {
                use super::*;

                loops! {
                    "encode" encode($it) $encode;
                    "decode" decode($it) $decode;
                }
            }
        )*

        fn cells_of<const N: usize>() -> Vec<Cell> {
            let mut cells = vec![];
            $(
                #[$when]
                for (call, loops) in $module::calls::<N>() {
                    cells.push(Cell::new(format!("{call} by {}", $name), N, loops));
                }
            )*
            cells
        }
    };
}

libraries! {
    #[cfg(all())]
    in_rust(it) "Bunkmedlar (Rust)",
        encodes ours::hex_encode(black_box(it.bytes), black_box(it.room)).unwrap().len(),
        decodes ours::hex_decode(black_box(it.lower), black_box(it.room)).unwrap().len();
    #[cfg(all())]
    in_c(it) "Bunkmedlar (C)",
        encodes unsafe {
            // SAFETY: the pointers and lengths are those of the slices, here and in the calls below.
            let (src, dst) = (black_box(it.bytes), black_box(&mut *it.room));
            faster_hex_encode(src.as_ptr(), src.len(), dst.as_mut_ptr(), dst.len(), false)
        },
        decodes unsafe {
            // SAFETY: as above.
            let (src, dst) = (black_box(it.lower), black_box(&mut *it.room));
            faster_hex_decode(src.as_ptr(), src.len(), dst.as_mut_ptr(), dst.len())
        };
    #[cfg(theirs)]
    faster_hex(it) "faster-hex 1.0.0",
        encodes theirs::hex_encode(black_box(it.bytes), black_box(it.room)).unwrap().len(),
        decodes theirs::hex_decode(black_box(it.lower), black_box(it.room)).unwrap().len();
    #[cfg(hex)]
    hex_of_hex(it) env!("HEX"),
        encodes hex::encode_to_slice(black_box(it.bytes), &mut black_box(&mut *it.room)[..2 * N]).unwrap(),
        decodes hex::decode_to_slice(black_box(it.lower), &mut black_box(&mut *it.room)[..N]).unwrap();
    #[cfg(data_encoding)]
    of_data_encoding(it) env!("DATA_ENCODING"),
        encodes data_encoding::HEXLOWER.encode_mut(black_box(it.bytes), &mut black_box(&mut *it.room)[..2 * N]),
        decodes data_encoding::HEXLOWER_PERMISSIVE
            .decode_mut(black_box(it.lower), &mut black_box(&mut *it.room)[..N])
            .unwrap();
    #[cfg(crypto)]
    // SAFETY: the call takes any number.
    openssl(it) named("OpenSSL", unsafe { OpenSSL_version(6) }),
        encodes unsafe {
            // SAFETY: as above.
            let (src, dst, mut written) = (black_box(it.bytes), black_box(&mut *it.room), 0);
            OPENSSL_buf2hexstr_ex(dst.as_mut_ptr(), dst.len(), &mut written, src.as_ptr(), src.len(), 0)
        },
        decodes unsafe {
            // SAFETY: as above, and the digits end with a zero.
            let (src, dst, mut written) = (black_box(it.ended), black_box(&mut *it.room), 0);
            OPENSSL_hexstr2buf_ex(dst.as_mut_ptr(), dst.len(), &mut written, src.as_ptr(), 0)
        };
    #[cfg(sodium)]
    // SAFETY: the call takes nothing.
    libsodium(it) named("libsodium", unsafe { sodium_version_string() }),
        encodes unsafe {
            // SAFETY: as above.
            let (src, dst) = (black_box(it.bytes), black_box(&mut *it.room));
            sodium_bin2hex(dst.as_mut_ptr(), dst.len(), src.as_ptr(), src.len())
        },
        decodes unsafe {
            // SAFETY: as above. The list of bytes to ignore and the end may be null.
            let (src, dst, mut written) = (black_box(it.lower), black_box(&mut *it.room), 0);
            let (ignored, end) = (null_mut(), null_mut());
            sodium_hex2bin(dst.as_mut_ptr(), dst.len(), src.as_ptr(), src.len(), ignored, &mut written, end)
        };
}

/// Whether a call wrote the digits, in either case, or the bytes.
fn is_right(cell: &Cell, task: &Task) -> bool {
    if cell.name.starts_with("encode") {
        task.room[..2 * cell.size].eq_ignore_ascii_case(task.lower)
    } else {
        task.room[..cell.size] == *task.bytes
    }
}

fn main() {
    let cells = [cells_of::<32>, cells_of::<4_096>, cells_of::<LARGEST>];
    let cells = cells.iter().flat_map(|cells| cells()).collect::<Vec<_>>();
    timing::check(&cells, is_right);
    timing::time(cells);
}
