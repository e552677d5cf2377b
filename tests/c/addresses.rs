//! Makes the calls that return owned values, and checks under a policy, on random keys that depend on a seed.
//! There is a store to `mark` before and after each call, so that `tests/test_secrets.py` finds the call in a
//! trace. It compares the addresses that a call uses on different keys. Without a seed the program prints a line
//! for each call: its name, a number, and the length of its source.

use faster_hex::{hex_check_with_case, hex_decode_array, hex_decode_vec, hex_string, CheckCase};
use std::hint::black_box;
use std::sync::atomic::{AtomicU32, Ordering};

#[allow(non_upper_case_globals)]
#[no_mangle]
static mark: AtomicU32 = AtomicU32::new(0);

/// Makes a call between two stores to `mark`, or prints its line.
fn trace<T>(prints: bool, name: &str, length: usize, call: impl FnOnce() -> T) {
    if prints {
        println!("faster_hex_{name}(0) {length}");
    }
    mark.store(1, Ordering::Release);
    let answer = call();
    mark.store(0, Ordering::Release);
    black_box(answer);
}

fn trace_array<const N: usize>(prints: bool, digits: &[u8]) {
    trace(prints, "decode_array", 2 * N, || hex_decode_array::<N>(&digits[..2 * N]));
}

fn main() {
    let seed = std::env::args().nth(1);
    let (prints, mut drawn) = (seed.is_none(), seed.map_or(0, |it| it.parse::<u64>().unwrap()));
    let mut draw = || {
        drawn = drawn.wrapping_mul(6364136223846793005).wrapping_add(1442695040888963407);
        (drawn >> 56) as u8
    };
    let bytes: Vec<u8> = (0..320).map(|_| draw()).collect();
    let digits: Vec<u8> = (0..640).map(|_| b"0123456789abcdefABCDEF"[draw() as usize % 22]).collect();
    let lower: Vec<u8> = (0..640).map(|_| b"0123456789abcdef"[draw() as usize % 16]).collect();
    for length in 0..=320 {
        trace(prints, "string", length, || hex_string(&bytes[..length]));
        trace(prints, "check", 2 * length, || hex_check_with_case(&lower[..2 * length], CheckCase::Lower));
        trace(prints, "decode_vec", 2 * length, || hex_decode_vec(&digits[..2 * length]));
    }
    trace_array::<1>(prints, &digits);
    trace_array::<16>(prints, &digits);
    trace_array::<20>(prints, &digits);
    trace_array::<32>(prints, &digits);
    trace_array::<64>(prints, &digits);
}
