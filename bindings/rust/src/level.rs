//! The level of x86-64, by which a call chooses its build. This is not proved.

use core::arch::x86_64::{__cpuid, __cpuid_count, _xgetbv};
use core::sync::atomic::{AtomicU8, Ordering::Relaxed};

/// The level, from 1 to 5. It is 0 until the first call has asked the processor.
static LEVEL: AtomicU8 = AtomicU8::new(0);

/// Returns the highest level of the processor for which there is a build. Level 5 is level 4 with AVX-512 VBMI.
pub fn find() -> u8 {
    if LEVEL.load(Relaxed) == 0 {
        LEVEL.store(level_of(&Processor::read()), Relaxed);
    }
    LEVEL.load(Relaxed)
}

/// The words that `cpuid` and `xgetbv` return.
#[derive(Clone, Copy)]
struct Processor {
    /// Leaf 0, `eax`: the highest basic leaf.
    highest: u32,
    /// Leaf 1, `ecx`.
    basic: u32,
    /// Leaf 7, `ebx`.
    wide: u32,
    /// Leaf 7, `ecx`.
    permutes: u32,
    /// Leaf 0x8000_0000, `eax`: the highest extended leaf.
    highest_extended: u32,
    /// Leaf 0x8000_0001, `ecx`.
    extended: u32,
    /// The registers that the system saves, or 0 if it does not tell.
    saved: u32,
}

impl Processor {
    // `__cpuid` is unsafe in some versions of Rust.
    #[allow(unused_unsafe)]
    fn read() -> Processor {
        // SAFETY: every x86-64 processor has `cpuid`, and `xgetbv` where the system has set OSXSAVE.
        unsafe {
            let basic = __cpuid(1).ecx;
            let saved = match has(basic, &[27]) {
                true => _xgetbv(0) as u32,
                false => 0,
            };
            Processor {
                highest: __cpuid(0).eax,
                basic,
                wide: __cpuid_count(7, 0).ebx,
                permutes: __cpuid_count(7, 0).ecx,
                highest_extended: __cpuid(0x8000_0000).eax,
                extended: __cpuid(0x8000_0001).ecx,
                saved,
            }
        }
    }
}

fn has(word: u32, bits: &[u32]) -> bool {
    bits.iter().all(|bit| word >> bit & 1 == 1)
}

/// Returns the highest level that has a build, and of which the processor has all bits. A leaf above the
/// highest one has no meaning, so it counts as 0.
fn level_of(it: &Processor) -> u8 {
    let leaf = |is_there: bool, word: u32| if is_there { word } else { 0 };
    let basic = leaf(it.highest >= 1, it.basic);
    let wide = leaf(it.highest >= 7, it.wide);
    let extended = leaf(it.highest_extended >= 0x8000_0001, it.extended);
    // SSE3, SSSE3, CMPXCHG16B, SSE4.1, SSE4.2 and POPCNT, and LAHF.
    if !has(basic, &[0, 9, 13, 19, 20, 23]) || !has(extended, &[0]) {
        return 1;
    }
    // FMA, MOVBE, OSXSAVE, AVX and F16C; BMI1, AVX2 and BMI2; LZCNT; the registers of SSE and AVX.
    let is_3 = has(basic, &[12, 22, 27, 28, 29])
        && has(wide, &[3, 5, 8])
        && has(extended, &[5])
        && has(it.saved, &[1, 2]);
    // AVX512F, AVX512DQ, AVX512CD, AVX512BW and AVX512VL; their registers.
    let is_4 = is_3 && has(wide, &[16, 17, 28, 30, 31]) && has(it.saved, &[5, 6, 7]);
    let is_5 = is_4 && has(it.permutes, &[1]);
    2 + u8::from(is_3) + u8::from(is_4) + u8::from(is_5)
}

#[cfg(test)]
mod tests {
    extern crate std;

    use super::*;
    use std::is_x86_feature_detected as has_feature;

    const ALL: Processor = Processor {
        highest: 7,
        basic: !0,
        wide: !0,
        permutes: !0,
        highest_extended: 0x8000_0001,
        extended: !0,
        saved: !0,
    };

    fn level(change: impl Fn(&mut Processor)) -> u8 {
        let mut it = ALL;
        change(&mut it);
        level_of(&it)
    }

    #[test]
    fn each_missing_bit_gives_the_next_lower_level() {
        type Word = fn(&mut Processor) -> &mut u32;
        let wanted: [(Word, &[u32], u8); 9] = [
            (|it| &mut it.basic, &[0, 9, 13, 19, 20, 23], 1),
            (|it| &mut it.extended, &[0], 1),
            (|it| &mut it.basic, &[12, 22, 27, 28, 29], 2),
            (|it| &mut it.wide, &[3, 5, 8], 2),
            (|it| &mut it.extended, &[5], 2),
            (|it| &mut it.saved, &[1, 2], 2),
            (|it| &mut it.wide, &[16, 17, 28, 30, 31], 3),
            (|it| &mut it.saved, &[5, 6, 7], 3),
            (|it| &mut it.permutes, &[1], 4),
        ];
        let mut least = ALL;
        (least.basic, least.wide, least.permutes, least.extended, least.saved) = (0, 0, 0, 0, 0);
        for (word, bits, lower) in wanted {
            for bit in bits {
                assert_eq!(level(|it| *word(it) &= !(1 << bit)), lower, "{bit}");
                *word(&mut least) |= 1 << bit;
            }
        }
        assert_eq!((level_of(&ALL), level_of(&least)), (5, 5));
    }

    #[test]
    fn this_processor_has_the_level_of_its_features() {
        let has_3 = has_feature!("avx2") && has_feature!("bmi1") && has_feature!("bmi2") && has_feature!("fma");
        let has_4 = has_feature!("avx512f") && has_feature!("avx512bw") && has_feature!("avx512vl");
        assert_eq!(find() >= 3, has_3);
        assert_eq!(find() >= 4, has_3 && has_4);
        assert_eq!(find() == 5, has_3 && has_4 && has_feature!("avx512vbmi"));
    }

    #[test]
    fn a_leaf_that_is_not_there_counts_as_0() {
        assert_eq!(level(|it| it.highest = 6), 2);
        assert_eq!(level(|it| it.highest = 0), 1);
        assert_eq!(level(|it| it.highest_extended = 0x8000_0000), 1);
        assert_eq!(level(|it| it.highest_extended = 0), 1);
    }

    #[test]
    fn an_old_system_saves_fewer_registers() {
        assert_eq!(level(|it| it.saved = 0b0000_0011), 2);
        assert_eq!(level(|it| it.saved = 0b0000_0111), 3);
        assert_eq!(level(|it| it.saved = 0b1110_0111), 5);
        assert_eq!(level(|it| (it.basic, it.saved) = (!(1 << 27), 0)), 2);
    }
}
