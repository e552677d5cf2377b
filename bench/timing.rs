//! What the programs that time calls from Rust share: the data, the loops around a call, and the rounds.
//!
//! A time is the least of many rounds, with 20 places of the source and the destination, and four places of the loop
//! around the call: a short call may take a third longer if a jump crosses a multiple of 32 bytes. A round has all
//! calls, in another order each time, because a shared machine is slow for some seconds at a time.

use std::mem::replace;
use std::time::Instant;

pub const LARGEST: usize = 65_536;
const ROUNDS: usize = 800;
const ROUND_NS: f64 = 10_000.0;
const PLACES: usize = 20;
pub const LOOPS: usize = 4;
/// The distance from one place to the next, in bytes.
const STEP: usize = 64;
const SPAN: usize = PLACES * STEP;
/// What the room holds before a call is checked. No answer has so many of these bytes.
const OLD: u8 = 0xa5;

/// The data that a call reads and writes.
pub struct Task<'a> {
    pub bytes: &'a [u8],
    /// Digits in lowercase.
    pub lower: &'a [u8],
    /// The same digits, with every third one in uppercase.
    pub mixed: &'a [u8],
    /// The lowercase digits and a zero behind them, as calls want them that take no length.
    pub ended: &'a [u8],
    /// It has room for the digits and a zero, which some calls write behind the digits.
    pub room: &'a mut [u8],
    /// A call appends its text here. What is behind `start` is removed before.
    pub text: &'a mut String,
    pub start: usize,
}

/// Makes a call a number of times.
pub type Loop = fn(&mut Task, usize);

/// The loops around calls on `N` decoded bytes. A loop begins `NOPS` bytes after a multiple of 64.
macro_rules! loops {
    ($($shown:literal $name:ident($task:ident) $call:expr;)*) => {
        $(
            fn $name<const NOPS: usize, const N: usize>($task: &mut Task, turns: usize) {
                // SAFETY: `nop` does nothing.
                unsafe { std::arch::asm!(".p2align 6", ".rept {}", "nop", ".endr", const NOPS) };
                for _ in 0..turns {
                    std::hint::black_box($call);
                }
            }
        )*

        /// The loop around each call, by the call's name.
        pub fn calls<const N: usize>() -> Vec<(&'static str, [Loop; LOOPS])> {
            vec![$(($shown, [$name::<0, N>, $name::<16, N>, $name::<32, N>, $name::<48, N>])),*]
        }
    };
}

/// A call on a number of decoded bytes, and the least time that it took.
pub struct Cell {
    pub name: String,
    pub size: usize,
    pub loops: [Loop; LOOPS],
    turns: usize,
    least: f64,
}

impl Cell {
    pub fn new(name: String, size: usize, loops: [Loop; LOOPS]) -> Cell {
        Cell { name, size, loops, turns: 1, least: f64::INFINITY }
    }

    fn spent(&self, task: &mut Task, round: usize) -> f64 {
        let start = Instant::now();
        self.loops[round / PLACES % LOOPS](task, self.turns);
        start.elapsed().as_nanos() as f64
    }

    /// Times the call in one round. Before that it runs the call, to power up wide vectors and to find how many calls
    /// fill the round.
    fn time(&mut self, task: &mut Task, round: usize) {
        while self.spent(task, round) < ROUND_NS {
            self.turns *= 2;
        }
        self.least = self.least.min(self.spent(task, round) / self.turns as f64);
    }
}

/// All data, of which a task has a part.
struct Data {
    bytes: Vec<u8>,
    lower: Vec<u8>,
    mixed: Vec<u8>,
    room: Vec<u8>,
    text: String,
}

impl Data {
    fn new() -> Data {
        let mut state = 1;
        let bytes: Vec<u8> = (0..LARGEST + SPAN).map(|_| next(&mut state) as u8).collect();
        let lower: Vec<u8> = bytes.iter().flat_map(|it| format!("{it:02x}").into_bytes()).collect();
        let both = |(at, it): (usize, &u8)| if at % 3 == 0 { it.to_ascii_uppercase() } else { *it };
        let mixed = lower.iter().enumerate().map(both).collect();
        let text = String::with_capacity(2 * LARGEST + SPAN);
        Data { bytes, lower, mixed, room: vec![0; 2 * LARGEST + SPAN + 1], text }
    }

    /// Does something with the data of one size at one place.
    fn with(&mut self, size: usize, at: usize, act: impl FnOnce(&mut Task)) {
        self.text.clear();
        self.text.extend(std::iter::repeat_n('-', at));
        let behind = replace(&mut self.lower[at + 2 * size], 0);
        act(&mut Task {
            bytes: &self.bytes[at..][..size],
            lower: &self.lower[at..][..2 * size],
            mixed: &self.mixed[at..][..2 * size],
            ended: &self.lower[at..][..2 * size + 1],
            room: &mut self.room[SPAN - at..][..2 * size + 1],
            text: &mut self.text,
            start: at,
        });
        self.lower[at + 2 * size] = behind;
    }
}

/// The next pseudo-random number. The numbers are the same in each run.
fn next(state: &mut u64) -> usize {
    *state = state.wrapping_mul(6_364_136_223_846_793_005).wrapping_add(1_442_695_040_888_963_407);
    (*state >> 33) as usize
}

fn shuffle(list: &mut [usize], state: &mut u64) {
    for left in (1..list.len()).rev() {
        list.swap(left, next(state) % (left + 1));
    }
}

/// Makes each call once at the first place, where the digits are those of the bytes, and has `is_right` look at what it
/// left in the room.
pub fn check(cells: &[Cell], is_right: impl Fn(&Cell, &Task) -> bool) {
    let mut data = Data::new();
    for cell in cells {
        data.with(cell.size, 0, |task| {
            task.room.fill(OLD);
            cell.loops[0](task, 1);
            assert!(is_right(cell, task), "{} is wrong for {} bytes", cell.name, cell.size);
        });
    }
}

/// Times all calls, and prints a line for each: `name<TAB>bytes<TAB>ns`.
pub fn time(mut cells: Vec<Cell>) {
    let mut data = Data::new();
    let (mut order, mut state): (Vec<usize>, u64) = ((0..cells.len()).collect(), 1);
    for round in 0..ROUNDS {
        shuffle(&mut order, &mut state);
        for at in &order {
            let cell = &mut cells[*at];
            data.with(cell.size, round % PLACES * STEP, |task| cell.time(task, round));
        }
    }
    for Cell { name, size, least, .. } in cells {
        println!("{name}\t{size}\t{least:.2}");
    }
}
