//! Times the public calls of our Rust crate, which is the crate `ours` here, and those of `faster-hex`, which is
//! `theirs`. The calls are made as in a program that replaces one crate by the other and that cargo builds for a
//! release. Each result is unwrapped, because the copy out of a `Result` may take longer than the call itself. The
//! program's argument names the widest vectors that both crates are built for. It prints a line for each crate, call
//! and number of decoded bytes: `avx512 ours hex_check<TAB>bytes<TAB>ns`.

use std::fmt::Write;
use std::hint::black_box;

#[macro_use]
mod timing;
use timing::{Cell, LARGEST, LOOPS, Loop, Task};

macro_rules! crates {
    ($($krate:ident)*) => {
        $(
            mod $krate {
                use super::*;
                use ::$krate::*;

                loops! {
                    "hex_check" check(it) hex_check(black_box(it.mixed));
                    "hex_check_with_case" check_case(it) {
                        hex_check_with_case(black_box(it.lower), CheckCase::Lower)
                    };
                    "hex_encode" encode(it) {
                        hex_encode(black_box(it.bytes), black_box(it.room)).unwrap().len()
                    };
                    "hex_decode" decode(it) {
                        hex_decode(black_box(it.mixed), black_box(it.room)).unwrap().len()
                    };
                    "hex_decode_array" array(it) hex_decode_array::<N>(black_box(it.mixed)).unwrap();
                    "hex_decode_vec" vec(it) hex_decode_vec(black_box(it.mixed)).unwrap();
                    "hex_string" string(it) hex_string(black_box(it.bytes));
                    "hex_append" append(it) {
                        it.text.truncate(it.start);
                        hex_append(black_box(it.bytes), black_box(it.text)).len()
                    };
                    "{}" shown(it) {
                        it.text.truncate(it.start);
                        write!(black_box(&mut *it.text), "{}", Hex::new(black_box(it.bytes))).unwrap()
                    };
                    "{:>}" padded(it) {
                        it.text.truncate(it.start);
                        let (bytes, width) = (Hex::new(black_box(it.bytes)), (2 * N + 12).min(65_535));
                        write!(black_box(&mut *it.text), "{bytes:>width$}").unwrap()
                    };
                }
            }
        )*

        fn cells_of<const N: usize>(widest: &str) -> Vec<Cell> {
            let cell = |krate, (call, loops)| Cell::new(format!("{widest} {krate} {call}"), N, loops);
            let of = [$((stringify!($krate), $krate::calls::<N>())),*];
            of.into_iter().flat_map(|(krate, calls)| calls.into_iter().map(move |it| cell(krate, it))).collect()
        }
    };
}

crates!(ours theirs);

fn main() {
    let widest = std::env::args().nth(1).expect("avx512 or avx2");
    let few = [cells_of::<4>, cells_of::<8>, cells_of::<16>, cells_of::<20>, cells_of::<32>, cells_of::<64>];
    let many = [cells_of::<128>, cells_of::<256>, cells_of::<1_024>, cells_of::<4_096>, cells_of::<LARGEST>];
    timing::time(few.iter().chain(&many).flat_map(|cells| cells(&widest)).collect());
}
