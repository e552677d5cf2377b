//! The calls in plain Rust, for targets without builds. They work on one byte at a time. They are not proved,
//! but a test compares them with the builds.

use core::mem::MaybeUninit;

use crate::{CheckCase, Error};

fn value_of(byte: u8, case: CheckCase) -> Option<u8> {
    match byte {
        b'0'..=b'9' => Some(byte - b'0'),
        b'a'..=b'f' if case != CheckCase::Upper => Some(byte - b'a' + 10),
        b'A'..=b'F' if case != CheckCase::Lower => Some(byte - b'A' + 10),
        _ => None,
    }
}

fn first_invalid(src: &[u8], case: CheckCase) -> Option<usize> {
    src.iter().position(|&byte| value_of(byte, case).is_none())
}

/// Returns the name of the build that calls use.
pub fn build() -> &'static str {
    "portable"
}

/// Returns whether every byte is a digit under the policy.
pub fn check(src: &[u8], case: CheckCase) -> bool {
    first_invalid(src, case).is_none()
}

/// Writes the digits of `src` to the front of `dst`, and returns how many.
pub fn encode(src: &[u8], dst: &mut [MaybeUninit<u8>], upper: bool) -> Result<usize, Error> {
    let required = src.len().checked_mul(2).ok_or(Error::Overflow)?;
    let too_small = Error::OutputTooSmall { required };
    let digits = dst.get_mut(..required).ok_or(too_small)?;
    let values = if upper {
        b"0123456789ABCDEF"
    } else {
        b"0123456789abcdef"
    };
    for (pair, &byte) in digits.chunks_exact_mut(2).zip(src) {
        pair[0].write(values[usize::from(byte / 16)]);
        pair[1].write(values[usize::from(byte % 16)]);
    }
    Ok(required)
}

/// Does the same as `decode`, but skips white space in `src`.
pub fn decode_spaced(src: &[u8], dst: &mut [MaybeUninit<u8>], case: CheckCase) -> Result<usize, Error> {
    let solid = |byte: &u8| !byte.is_ascii_whitespace();
    let digits = src.iter().filter(|byte| solid(byte)).count();
    if digits % 2 == 1 {
        return Err(Error::OddLength);
    }
    let required = digits / 2;
    let too_small = Error::OutputTooSmall { required };
    let bytes = dst.get_mut(..required).ok_or(too_small)?;
    let stray = |byte: &u8| solid(byte) && value_of(*byte, case).is_none();
    if let Some(index) = src.iter().position(stray) {
        let byte = src[index];
        return Err(Error::InvalidChar { index, byte });
    }
    let mut values = src.iter().filter_map(|&byte| value_of(byte, case));
    for byte in bytes {
        let mut value = || values.next().unwrap_or(0);
        byte.write(16 * value() + value());
    }
    Ok(required)
}

/// Writes the bytes that `src` spells to the front of `dst`, and returns how many.
pub fn decode(src: &[u8], dst: &mut [MaybeUninit<u8>], case: CheckCase) -> Result<usize, Error> {
    if src.len() % 2 == 1 {
        return Err(Error::OddLength);
    }
    let required = src.len() / 2;
    let too_small = Error::OutputTooSmall { required };
    let bytes = dst.get_mut(..required).ok_or(too_small)?;
    if let Some(index) = first_invalid(src, case) {
        let byte = src[index];
        return Err(Error::InvalidChar { index, byte });
    }
    for (byte, pair) in bytes.iter_mut().zip(src.chunks_exact(2)) {
        let value = |at: usize| value_of(pair[at], case).unwrap_or(0);
        byte.write(16 * value(0) + value(1));
    }
    Ok(required)
}
