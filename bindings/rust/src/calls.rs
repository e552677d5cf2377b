//! The calls on slices. Each one runs the build that fits the processor. For a target without builds
//! `portable.rs` is compiled in place of this file.

use core::mem::MaybeUninit;

use crate::{CheckCase, Error};

#[path = "builds.rs"]
mod builds;
#[cfg(test)]
#[path = "portable.rs"]
mod portable;

/// What a build returns. C has the same struct as `struct faster_hex_answer`.
#[repr(C)]
pub struct Answer {
    number: usize,
    status: u8,
    byte: u8,
}

/// The number of a policy in `faster_hex.h`.
const fn number_of(case: CheckCase) -> u8 {
    match case {
        CheckCase::None => 0,
        CheckCase::Lower => 1,
        CheckCase::Upper => 2,
    }
}

/// Turns an answer into a `Result`.
#[inline]
fn result_of(answer: Answer) -> Result<usize, Error> {
    match answer.status {
        0 => Ok(answer.number),
        _ => Err(error_of(answer)),
    }
}

/// The error of a call that failed. No call here gets a status about policies or groups. This is a function of its
/// own, so that a call that succeeds makes only one test.
#[cold]
fn error_of(answer: Answer) -> Error {
    match answer.status {
        1 => Error::OddLength,
        2 => Error::OutputTooSmall {
            required: answer.number,
        },
        3 => Error::InvalidChar {
            index: answer.number,
            byte: answer.byte,
        },
        _ => Error::Overflow,
    }
}

/// Returns the name of the build that calls use.
pub fn build() -> &'static str {
    builds::name()
}

/// Returns whether every byte is a digit under the policy.
#[inline]
pub fn check(src: &[u8], case: CheckCase) -> bool {
    let call = match case {
        CheckCase::None => builds::check,
        CheckCase::Lower => builds::check_lower,
        CheckCase::Upper => builds::check_upper,
    };
    // SAFETY: the pointer and the length are those of the slice.
    unsafe { call(src.as_ptr(), src.len()) }
}

/// Writes the digits of `src` to the front of `dst`, and returns how many.
#[inline]
pub fn encode(src: &[u8], dst: &mut [MaybeUninit<u8>], upper: bool) -> Result<usize, Error> {
    let (from, len, to, room) = (src.as_ptr(), src.len(), dst.as_mut_ptr().cast(), dst.len());
    // SAFETY: the pointers and lengths are those of the slices, and a slice that can be written overlaps no other.
    result_of(unsafe { builds::encode(from, len, to, room, upper) })
}

/// Writes the bytes that `src` spells to the front of `dst`, and returns how many.
#[inline]
pub fn decode(src: &[u8], dst: &mut [MaybeUninit<u8>], case: CheckCase) -> Result<usize, Error> {
    let (from, len, to, room) = (src.as_ptr(), src.len(), dst.as_mut_ptr().cast(), dst.len());
    // SAFETY: as in `encode`.
    result_of(unsafe {
        match case {
            CheckCase::None => builds::decode(from, len, to, room),
            _ => builds::decode_with_case(from, len, to, room, number_of(case)),
        }
    })
}

/// Does the same as `decode`, but skips white space in `src`.
#[inline]
pub fn decode_spaced(src: &[u8], dst: &mut [MaybeUninit<u8>], case: CheckCase) -> Result<usize, Error> {
    let (from, len, to, room) = (src.as_ptr(), src.len(), dst.as_mut_ptr().cast(), dst.len());
    // SAFETY: as in `encode`.
    result_of(unsafe { builds::decode_spaced(from, len, to, room, number_of(case)) })
}

#[cfg(test)]
mod tests {
    use super::*;

    /// Some statuses need a slice that is longer than any slice can be. So this test makes the answers itself.
    #[test]
    fn each_status_has_its_error() {
        let (number, byte) = (7, b'g');
        let told = |status| {
            result_of(Answer {
                number,
                status,
                byte,
            })
        };
        assert_eq!(told(0), Ok(7));
        assert_eq!(told(1), Err(Error::OddLength));
        assert_eq!(told(2), Err(Error::OutputTooSmall { required: 7 }));
        assert_eq!(told(3), Err(Error::InvalidChar { index: 7, byte }));
        assert_eq!(told(4), Err(Error::Overflow));
    }

    #[test]
    fn the_build_has_the_name_of_its_level() {
        assert_eq!(portable::build(), "portable");
        #[cfg(target_arch = "aarch64")]
        assert_eq!(build(), "aarch64");
        #[cfg(target_arch = "x86_64")]
        {
            use std::is_x86_feature_detected as has;
            let name = match (has!("avx512bw"), has!("avx2"), has!("sse4.2")) {
                (true, _, _) if has!("avx512vbmi") => "x86-64-vbmi",
                (true, _, _) => "x86-64-v4",
                (_, true, _) => "x86-64-v3",
                (_, _, true) => "x86-64-v2",
                _ => "x86-64",
            };
            assert_eq!(build(), name);
        }
    }

    /// A random number below `bound`.
    fn below(state: &mut u64, bound: usize) -> usize {
        *state ^= *state << 13;
        *state ^= *state >> 7;
        *state ^= *state << 17;
        (*state >> 20) as usize % bound
    }

    /// Makes 20,000 random calls, or as many as ROUNDS says.
    #[test]
    fn portable_calls_answer_as_builds_do() {
        let rounds = std::env::var("ROUNDS").map_or(20_000, |it| it.parse().unwrap());
        let state = &mut 1;
        for _ in 0..rounds {
            let case = [CheckCase::None, CheckCase::Lower, CheckCase::Upper][below(state, 3)];
            let letters = [
                b"0123456789aBcDeF",
                b"0123456789abcdef",
                b"0123456789ABCDEF",
            ];
            let (mut src, len, upper) = ([0; 300], below(state, 300), below(state, 2) == 1);
            src.fill_with(|| letters[case as usize][below(state, 16)]);
            if below(state, 2) == 1 {
                src[below(state, 300)] = below(state, 256) as u8;
            }
            let (src, room) = (&src[..len], below(state, 700));
            let mut places = [[MaybeUninit::new(0xa5); 700]; 2];
            let [ours, theirs] = &mut places;
            assert_eq!(check(src, case), portable::check(src, case));
            let told = encode(src, &mut ours[..room], upper);
            assert_eq!(told, portable::encode(src, &mut theirs[..room], upper));
            let told = decode(src, &mut ours[room..], case);
            assert_eq!(told, portable::decode(src, &mut theirs[room..], case));
            let mut spaced = src.to_vec();
            let every = 1 + below(state, 80);
            spaced.iter_mut().step_by(every).for_each(|byte| *byte = b" \t\n\x0c\r"[below(state, 5)]);
            let told = decode_spaced(&spaced, &mut ours[room..], case);
            assert_eq!(told, portable::decode_spaced(&spaced, &mut theirs[room..], case));
            // SAFETY: all bytes were written at first.
            let bytes = places.map(|it| it.map(|byte| unsafe { byte.assume_init() }));
            assert_eq!(bytes[0], bytes[1]);
        }
    }
}
