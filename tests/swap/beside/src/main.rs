//! Calls our Rust crate and `faster-hex` on the same random inputs, and on strings of all lengths up to 4,200. It
//! compares answers, texts of errors, whole destinations, capacities, and the number and size of allocations. The
//! table in `calls` has every public name of both, and `ADDED` those of the bindings alone. `tests/test_swap.py`
//! builds and runs it. For each kind of call it prints the first round in which the two differ. The last line is
//! `N passed, M failed`, which counts the kinds of calls, the two tables of names, and the strings.
//! Usage: beside ROUNDS SEED

mod given;

use std::alloc::{GlobalAlloc, Layout, System};
use std::collections::BTreeSet;
use std::env;
use std::fmt::{self, Arguments, Debug, Display, Write};
use std::sync::atomic::{AtomicUsize, Ordering::Relaxed};

use given::{Input, Random};

/// The system's memory, with a count of requests and of their bytes.
struct Counted;

static REQUESTS: AtomicUsize = AtomicUsize::new(0);
static BYTES: AtomicUsize = AtomicUsize::new(0);

// SAFETY: the system's allocator does what is asked for.
unsafe impl GlobalAlloc for Counted {
    unsafe fn alloc(&self, layout: Layout) -> *mut u8 {
        REQUESTS.fetch_add(1, Relaxed);
        BYTES.fetch_add(layout.size(), Relaxed);
        // SAFETY: the caller promises what the system's allocator needs.
        System.alloc(layout)
    }

    unsafe fn dealloc(&self, place: *mut u8, layout: Layout) {
        // SAFETY: as above.
        System.dealloc(place, layout)
    }
}

#[global_allocator]
static MEMORY: Counted = Counted;

/// What was answered: an answer, or an error by its name and its text.
fn told<T: Debug, E: Debug + Display>(answer: Result<T, E>) -> String {
    match answer {
        Ok(answer) => format!("{answer:?}"),
        Err(error) => format!("{error:?}: {error}"),
    }
}

/// A text in a string with capacity for any: how a crate cuts its writes is its own matter.
fn text(written: Arguments) -> String {
    let mut text = String::with_capacity(1 << 17);
    text.write_fmt(written).unwrap();
    text
}

/// A writer that takes so many bytes of a text.
struct Room(usize);

impl Write for Room {
    fn write_str(&mut self, text: &str) -> fmt::Result {
        self.0 = self.0.checked_sub(text.len()).ok_or(fmt::Error)?;
        Ok(())
    }
}

fn fits(room: usize, written: Arguments) -> bool {
    Room(room).write_fmt(written).is_ok()
}

/// What the calls of a module for serde write and read, of which the crate's root has the same.
macro_rules! module {
    ($($path:ident)::+, $it:ident, $data:expr) => {{
        use $($path)::+ as module;
        let (mut text, mut of_array) = (Vec::new(), Vec::new());
        let written = [
            told(module::serialize($data, &mut serde_json::Serializer::new(&mut text))),
            told(module::array::serialize($data, &mut serde_json::Serializer::new(&mut of_array))),
        ];
        let read = [
            told(module::deserialize::<_, Vec<u8>>($it.given())),
            told(module::deserialize_bounded::<0, _, Vec<u8>>($it.given())),
            told(module::deserialize_bounded::<4, _, Vec<u8>>($it.given())),
            told(module::deserialize_bounded::<20, _, Vec<u8>>($it.given())),
            told(module::deserialize_bounded::<{ usize::MAX }, _, Vec<u8>>($it.given())),
            told(module::array::deserialize::<_, 0>($it.given())),
            told(module::array::deserialize::<_, 4>($it.given())),
            told(module::array::deserialize::<_, 20>($it.given())),
        ];
        let texts = [text, of_array].map(|it| String::from_utf8(it).unwrap());
        format!("{written:?} {texts:?} {read:?}")
    }};
}

/// The calls of one of the two crates by their names: what is answered, and what a destination holds.
macro_rules! calls {
    ($side:ident, $krate:ident) => {
        mod $side {
            use super::{fits, text, told, Input};
            use $krate::*;

            fn case(it: &Input) -> CheckCase {
                [CheckCase::default(), CheckCase::Lower, CheckCase::Upper][it.case]
            }

            fn into(it: &Input, call: impl FnOnce(&mut [u8]) -> String) -> String {
                let mut room = vec![0xa5; it.room];
                let told = call(&mut room);
                format!("{told} in {room:?}")
            }

            fn string(text: String) -> String {
                format!("{text} in {}", text.capacity())
            }

            fn append(it: &Input, call: impl FnOnce(&mut String) -> String) -> String {
                let mut text = String::with_capacity(10 + it.room);
                text.push_str("前缀: ");
                let told = call(&mut text);
                format!("{told} in {}", string(text))
            }

            fn vector(answer: Result<Vec<u8>, Error>) -> String {
                told(answer.map(|bytes| (bytes.capacity(), bytes)))
            }

            fn array<const N: usize>(digits: &[u8], case: Option<CheckCase>) -> String {
                told(match case {
                    Option::None => hex_decode_array::<N>(digits),
                    Some(case) => hex_decode_array_with_case::<N>(digits, case),
                })
            }

            fn arrays(it: &Input, case: Option<CheckCase>) -> String {
                let of = [
                    array::<0>, array::<1>, array::<2>, array::<3>, array::<4>, array::<8>, array::<16>,
                    array::<20>, array::<31>, array::<32>, array::<33>, array::<48>, array::<64>, array::<300>,
                ];
                let repeated: Vec<u8> = it.digits.iter().copied().cycle().take(1000).collect();
                of.map(|array| array(&it.digits, case)).join(" ") + &array::<500>(&repeated, case)
            }

            fn error(e: &dyn std::error::Error, n: usize) -> String {
                text(format_args!("{e}|{e:?}|{e:>n$}|{e:*<80.9}|{e:#^+090}|{:?}", e.source()))
            }

            fn hex(h: Hex, n: usize, room: usize) -> String {
                let plain = text(format_args!("{h}|{h:x}|{h:X}|{h:?}|{h:#}|{h:#X}|{h:+#X}|{h:n$}|{h:<n$}"));
                let cut = [fits(room, format_args!("{h:>n$}")), fits(room, format_args!("{h:💠<#n$}"))];
                plain + &text(format_args!("{h:*>+n$X}|{h:💠^#n$x}|{h:#0n$}|{h:*<+#0n$X}|{h:-^n$.3}|{cut:?}"))
            }

            pub fn strings(bytes: &[u8]) -> [String; 4] {
                let h = Hex::new(bytes);
                [hex_string(bytes), hex_string_upper(bytes), h.to_string(), format!("{h:X}")]
            }

            pub const CALLS: &[(&str, fn(&Input) -> String)] = &[
                ("hex_check", |it| hex_check(&it.digits).to_string()),
                ("hex_check_with_case", |it| hex_check_with_case(&it.digits, case(it)).to_string()),
                ("hex_encode", |it| into(it, |to| told(hex_encode(&it.bytes, to)))),
                ("hex_encode_upper", |it| into(it, |to| told(hex_encode_upper(&it.bytes, to)))),
                ("hex_decode", |it| into(it, |to| told(hex_decode(&it.digits, to)))),
                ("hex_decode_with_case", |it| {
                    into(it, |to| told(hex_decode_with_case(&it.digits, to, case(it))))
                }),
                ("hex_decode_array", |it| arrays(it, Option::None)),
                ("hex_decode_array_with_case", |it| arrays(it, Some(case(it)))),
                ("hex_decode_vec", |it| vector(hex_decode_vec(&it.digits))),
                ("hex_decode_vec_with_case", |it| vector(hex_decode_vec_with_case(&it.digits, case(it)))),
                ("hex_string", |it| string(hex_string(&it.bytes))),
                ("hex_string_upper", |it| string(hex_string_upper(&it.bytes))),
                ("hex_append", |it| append(it, |text| hex_append(&it.bytes, text).to_owned())),
                ("hex_append_upper", |it| append(it, |text| hex_append_upper(&it.bytes, text).to_owned())),
                ("CheckCase", |it| format!("{:?} {}", case(it), case(it) == CheckCase::default())),
                ("Error", |it| {
                    let refused = hex_decode_array::<4>(&it.digits).map(drop);
                    let refused = refused.and(hex_encode(&it.bytes, &mut [0; 20]).map(drop));
                    error(&refused.err().unwrap_or(Error::Overflow), it.width)
                }),
                ("Hex", |it| hex(Hex::new(&it.bytes), it.width, it.room)),
                ("array deserialize deserialize_bounded serialize", |it| module!($krate, it, &it.bytes)),
                ("withpfx_ignorecase", |it| module!($krate::withpfx_ignorecase, it, &it.bytes)),
                ("withpfx_lowercase", |it| module!($krate::withpfx_lowercase, it, &it.bytes)),
                ("withpfx_uppercase", |it| module!($krate::withpfx_uppercase, it, &it.bytes)),
                ("nopfx_ignorecase", |it| module!($krate::nopfx_ignorecase, it, &it.bytes)),
                ("nopfx_lowercase", |it| module!($krate::nopfx_lowercase, it, &it.bytes)),
                ("nopfx_uppercase", |it| module!($krate::nopfx_uppercase, it, &it.bytes)),
                ("option_withpfx_ignorecase", |it| module!($krate::option_withpfx_ignorecase, it, &it.data())),
                ("option_withpfx_lowercase", |it| module!($krate::option_withpfx_lowercase, it, &it.data())),
                ("option_withpfx_uppercase", |it| module!($krate::option_withpfx_uppercase, it, &it.data())),
                ("option_nopfx_ignorecase", |it| module!($krate::option_nopfx_ignorecase, it, &it.data())),
                ("option_nopfx_lowercase", |it| module!($krate::option_nopfx_lowercase, it, &it.data())),
                ("option_nopfx_uppercase", |it| module!($krate::option_nopfx_uppercase, it, &it.data())),
            ];
        }
    };
}

calls!(ours, faster_hex);
calls!(theirs, original);

/// The names that only the bindings have.
const ADDED: [&str; 2] = ["hex_decode_spaced", "hex_decode_spaced_with_case"];

/// The names that a crate's root re-exports.
fn public(root: &str) -> BTreeSet<&str> {
    let statements = root.split("pub use ").skip(1).map(|it| it.split(';').next().unwrap());
    let names = statements.map(|it| it.rsplit("::").next().unwrap());
    names.flat_map(|it| it.split([' ', ',', '{', '}', '\n'])).filter(|it| !it.is_empty()).collect()
}

/// What a call returns, and how often it asked for memory, and for how much.
fn observed(call: fn(&Input) -> String, input: &Input) -> (String, usize, usize) {
    REQUESTS.store(0, Relaxed);
    BYTES.store(0, Relaxed);
    let told = call(input);
    (told, REQUESTS.load(Relaxed), BYTES.load(Relaxed))
}

fn main() {
    let words: Vec<String> = env::args().collect();
    let (rounds, seed): (usize, u64) = match &words[1..] {
        [rounds, seed] => (rounds.parse().unwrap(), seed.parse().unwrap()),
        _ => panic!("usage: beside ROUNDS SEED"),
    };
    let mut failed = 0;
    let table: BTreeSet<&str> = ours::CALLS.iter().flat_map(|it| it.0.split(' ')).collect();
    let of_ours = table.iter().copied().chain(ADDED).collect();
    let root_of_ours = include_str!("../../../../bindings/rust/src/lib.rs");
    for (root, wanted) in [(root_of_ours, of_ours), (include_str!("../../../../checkout/src/lib.rs"), table)] {
        let names = public(root);
        if names != wanted {
            println!("failed: the table of calls: {:?}", &names ^ &wanted);
            failed += 1;
        }
    }
    for (kind, (ours, theirs)) in ours::CALLS.iter().zip(theirs::CALLS).enumerate() {
        let mut random = Random::new(seed, kind);
        for round in 0..rounds {
            let input = Input::new(&mut random);
            let (ours, theirs) = (observed(ours.1, &input), observed(theirs.1, &input));
            if ours != theirs {
                println!("failed: {} in round {round} of seed {seed}:", ours::CALLS[kind].0);
                println!("{:.900}, with {} requests of {} bytes, and not", ours.0, ours.1, ours.2);
                println!("{:.900}, with {} requests of {} bytes", theirs.0, theirs.1, theirs.2);
                failed += 1;
                break;
            }
        }
    }
    let bytes: Vec<u8> = (0..9000).map(|at| (at * 73 + at / 7) as u8).collect();
    let mut lengths = (0..=4200).chain([bytes.len()]);
    if let Some(len) = lengths.find(|&len| ours::strings(&bytes[..len]) != theirs::strings(&bytes[..len])) {
        println!("failed: the strings of {len} bytes");
        failed += 1;
    }
    println!("{} passed, {failed} failed", ours::CALLS.len() + 3 - failed);
}
