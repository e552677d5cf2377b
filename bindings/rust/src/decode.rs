//! Testing digits, and decoding them.

#[cfg(feature = "alloc")]
use alloc::vec::Vec;
use core::mem::MaybeUninit;
use core::slice;

use crate::encode::room;
use crate::{calls, Error};

/// Writes the bytes that `src` spells to the front of `dst`, which need not be initialized, and returns them.
#[inline]
fn decode_into<'a>(
    src: &[u8],
    dst: &'a mut [MaybeUninit<u8>],
    case: CheckCase,
) -> Result<&'a mut [u8], Error> {
    let written = calls::decode(src, dst, case)?;
    // SAFETY: the call has written as many bytes as it returns.
    Ok(unsafe { slice::from_raw_parts_mut(dst.as_mut_ptr().cast(), written) })
}

/// A policy: which letters are digits. `0` to `9` always are.
///
/// ```
/// use faster_hex::{hex_check_with_case, CheckCase};
///
/// assert!(hex_check_with_case(b"0aF", CheckCase::None));
/// assert!(!hex_check_with_case(b"0aF", CheckCase::Lower));
/// assert_eq!(CheckCase::default(), CheckCase::None);
/// ```
#[derive(Clone, Copy, Debug, Default, PartialEq, Eq, Hash)]
pub enum CheckCase {
    /// `a` to `f` and `A` to `F`, mixed too.
    #[default]
    None,
    /// Only `a` to `f`.
    Lower,
    /// Only `A` to `F`.
    Upper,
}

/// Tests whether every byte is a digit of either case. The source may have any length, also an odd one.
///
/// ```
/// assert!(faster_hex::hex_check(b"00aBc"));
/// assert!(!faster_hex::hex_check(b"0x01"));
/// ```
#[must_use]
#[inline]
pub fn hex_check(src: &[u8]) -> bool {
    hex_check_with_case(src, CheckCase::None)
}

/// Tests whether every byte is a digit under a policy. The source may have any length, also an odd one.
///
/// ```
/// use faster_hex::{hex_check_with_case, CheckCase};
///
/// assert!(hex_check_with_case(b"AB0", CheckCase::Upper));
/// assert!(!hex_check_with_case(b"AB0", CheckCase::Lower));
/// ```
#[must_use]
#[inline]
pub fn hex_check_with_case(src: &[u8], check_case: CheckCase) -> bool {
    calls::check(src, check_case)
}

/// Decodes digits of either case into the front of `dst`, and returns the bytes there. The rest of `dst` is
/// unchanged.
///
/// # Errors
///
/// The first that applies; `dst` is then unchanged:
///
/// 1. [`Error::OddLength`] if `src` has an odd length;
/// 2. [`Error::OutputTooSmall`] if `dst` is shorter than half of `src`;
/// 3. [`Error::InvalidChar`] with the first byte that is not a digit, and its index in `src`.
///
/// ```
/// let mut bytes = [0xa5; 4];
/// assert_eq!(faster_hex::hex_decode(b"00aBcD", &mut bytes)?, [0, 0xab, 0xcd]);
/// assert_eq!(bytes, [0, 0xab, 0xcd, 0xa5]);
/// # Ok::<(), faster_hex::Error>(())
/// ```
#[inline]
pub fn hex_decode<'a>(src: &[u8], dst: &'a mut [u8]) -> Result<&'a mut [u8], Error> {
    hex_decode_with_case(src, dst, CheckCase::None)
}

/// Like [`hex_decode`], under a policy for letter case.
///
/// # Errors
///
/// Those of [`hex_decode`], in its order. A letter of the wrong case is an invalid byte.
///
/// ```
/// use faster_hex::{hex_decode_with_case, CheckCase};
///
/// let mut bytes = [0; 2];
/// assert_eq!(hex_decode_with_case(b"AB01", &mut bytes, CheckCase::Upper)?, [0xab, 1]);
/// assert!(hex_decode_with_case(b"AB01", &mut bytes, CheckCase::Lower).is_err());
/// # Ok::<(), faster_hex::Error>(())
/// ```
#[inline]
pub fn hex_decode_with_case<'a>(
    src: &[u8],
    dst: &'a mut [u8],
    check_case: CheckCase,
) -> Result<&'a mut [u8], Error> {
    // SAFETY: the call writes only decoded bytes there.
    decode_into(src, unsafe { room(dst) }, check_case)
}

/// Decodes digits of either case into the front of `dst`, and skips ASCII white space among them, also between
/// the two digits of a byte. It returns the bytes there. The rest of `dst` is unchanged.
///
/// White space is what [`u8::is_ascii_whitespace`] says. This call is not constant time: do not use it for keys.
///
/// # Errors
///
/// The first that applies; `dst` is then unchanged:
///
/// 1. [`Error::OddLength`] if the number of bytes that are not white space is odd;
/// 2. [`Error::OutputTooSmall`] if `dst` is shorter than half of that number;
/// 3. [`Error::InvalidChar`] with the first byte that is neither white space nor a digit, and its index in `src`.
///
/// ```
/// let mut bytes = [0xa5; 4];
/// assert_eq!(faster_hex::hex_decode_spaced(b"00 a\r\nBcD\n", &mut bytes)?, [0, 0xab, 0xcd]);
/// assert_eq!(bytes, [0, 0xab, 0xcd, 0xa5]);
/// # Ok::<(), faster_hex::Error>(())
/// ```
#[inline]
pub fn hex_decode_spaced<'a>(src: &[u8], dst: &'a mut [u8]) -> Result<&'a mut [u8], Error> {
    hex_decode_spaced_with_case(src, dst, CheckCase::None)
}

/// Like [`hex_decode_spaced`], under a policy for letter case.
///
/// # Errors
///
/// Those of [`hex_decode_spaced`], in its order. A letter of the wrong case is an invalid byte.
///
/// ```
/// use faster_hex::{hex_decode_spaced_with_case, CheckCase};
///
/// let mut bytes = [0; 2];
/// assert_eq!(hex_decode_spaced_with_case(b"AB 01", &mut bytes, CheckCase::Upper)?, [0xab, 1]);
/// # Ok::<(), faster_hex::Error>(())
/// ```
#[inline]
pub fn hex_decode_spaced_with_case<'a>(
    src: &[u8],
    dst: &'a mut [u8],
    check_case: CheckCase,
) -> Result<&'a mut [u8], Error> {
    // SAFETY: the call writes only decoded bytes there.
    let room = unsafe { room(dst) };
    let written = calls::decode_spaced(src, room, check_case)?;
    Ok(&mut dst[..written])
}

/// Decodes digits of either case to an array of exactly `N` bytes. This needs no buffer and no allocator.
///
/// # Errors
///
/// The first that applies:
///
/// 1. [`Error::OddLength`] if `src` has an odd length;
/// 2. [`Error::LengthMismatch`] if the length of `src` is not `2 * N`;
/// 3. [`Error::InvalidChar`] with the first byte that is not a digit, and its index in `src`.
///
/// ```
/// assert_eq!(faster_hex::hex_decode_array::<3>(b"00aBcD")?, [0, 0xab, 0xcd]);
/// assert!(faster_hex::hex_decode_array::<4>(b"00aBcD").is_err());
/// # Ok::<(), faster_hex::Error>(())
/// ```
#[inline]
pub fn hex_decode_array<const N: usize>(src: &[u8]) -> Result<[u8; N], Error> {
    hex_decode_array_with_case(src, CheckCase::None)
}

/// Like [`hex_decode_array`], under a policy for letter case.
///
/// # Errors
///
/// Those of [`hex_decode_array`], in its order. A letter of the wrong case is an invalid byte.
///
/// ```
/// use faster_hex::{hex_decode_array_with_case, CheckCase};
///
/// assert_eq!(hex_decode_array_with_case::<2>(b"AB01", CheckCase::Upper)?, [0xab, 1]);
/// # Ok::<(), faster_hex::Error>(())
/// ```
#[inline]
pub fn hex_decode_array_with_case<const N: usize>(
    src: &[u8],
    check_case: CheckCase,
) -> Result<[u8; N], Error> {
    let error = if src.len() == 2 * N {
        let mut bytes = [MaybeUninit::uninit(); N];
        match calls::decode(src, &mut bytes, check_case) {
            // SAFETY: a call that succeeds has written one byte for two digits, so it has written all `N`.
            Ok(_) => return Ok(unsafe { bytes.as_ptr().cast::<[u8; N]>().read() }),
            Err(error) => error,
        }
    } else if src.len() % 2 == 1 {
        Error::OddLength
    } else {
        Error::LengthMismatch {
            expected: N,
            actual: src.len() / 2,
        }
    };
    refused(error)
}

// This is a call, so that rustc keeps the result of the function above whole in memory. Without the call, rustc
// would copy the array field by field, as if it were an error. Some of these loads would read what two stores
// wrote, which is slow: a call took 11 ns in place of 7.
#[cold]
#[inline(never)]
fn refused<const N: usize>(error: Error) -> Result<[u8; N], Error> {
    Err(error)
}

/// Decodes digits of either case to a new vector, whose capacity is its length. Requires the feature `alloc`.
///
/// # Errors
///
/// The first that applies:
///
/// 1. [`Error::OddLength`] if `src` has an odd length; nothing was allocated;
/// 2. [`Error::InvalidChar`] with the first byte that is not a digit, and its index in `src`.
///
/// ```
/// assert_eq!(faster_hex::hex_decode_vec(b"00aBff")?, [0, 0xab, 0xff]);
/// # Ok::<(), faster_hex::Error>(())
/// ```
#[cfg(feature = "alloc")]
#[inline]
pub fn hex_decode_vec(src: &[u8]) -> Result<Vec<u8>, Error> {
    hex_decode_vec_with_case(src, CheckCase::None)
}

/// Like [`hex_decode_vec`], under a policy for letter case. Requires the feature `alloc`.
///
/// # Errors
///
/// Those of [`hex_decode_vec`], in its order. A letter of the wrong case is an invalid byte.
///
/// ```
/// use faster_hex::{hex_decode_vec_with_case, CheckCase};
///
/// assert_eq!(hex_decode_vec_with_case(b"AB01", CheckCase::Upper)?, [0xab, 1]);
/// # Ok::<(), faster_hex::Error>(())
/// ```
#[cfg(feature = "alloc")]
#[inline(always)]
pub fn hex_decode_vec_with_case(src: &[u8], check_case: CheckCase) -> Result<Vec<u8>, Error> {
    if src.len() % 2 == 1 {
        return Err(Error::OddLength);
    }
    let mut bytes = Vec::with_capacity(src.len() / 2);
    let written = decode_into(src, bytes.spare_capacity_mut(), check_case)?.len();
    // SAFETY: so many bytes were written.
    unsafe { bytes.set_len(written) };
    Ok(bytes)
}

#[cfg(test)]
mod tests {
    use super::*;
    use core::{fmt::Debug, hash::Hash};

    const fn has_traits<T>()
    where
        T: Copy + Debug + Default + Eq + Hash + Send + Sync + Unpin + 'static,
    {
    }
    const _: () = has_traits::<CheckCase>();

    const ODD: Error = Error::OddLength;

    const fn small(required: usize) -> Error {
        Error::OutputTooSmall { required }
    }

    const fn invalid(index: usize, byte: u8) -> Error {
        Error::InvalidChar { index, byte }
    }

    const fn mismatch(actual: usize) -> Error {
        Error::LengthMismatch { expected: 2, actual }
    }

    #[test]
    fn a_buffer_gets_the_bytes_or_stays_as_it_was() {
        let wanted: [(&[u8], CheckCase, Result<&[u8], Error>); 10] = [
            (b"", CheckCase::None, Ok(&[])),
            (b"aB", CheckCase::None, Ok(&[0xab])),
            (b"01fF", CheckCase::None, Ok(&[0x01, 0xff])),
            (b"01ff", CheckCase::Lower, Ok(&[0x01, 0xff])),
            (b"01FF", CheckCase::Upper, Ok(&[0x01, 0xff])),
            (b"01ff", CheckCase::Upper, Err(invalid(2, b'f'))),
            (b"01FF", CheckCase::Lower, Err(invalid(2, b'F'))),
            (b"0g0h", CheckCase::None, Err(invalid(1, b'g'))),
            (b"0g0h00g0", CheckCase::None, Err(small(4))),
            (b"0g0h00g", CheckCase::None, Err(ODD)),
        ];
        for (text, case, answer) in wanted {
            let mut room = [0xa5; 3];
            let told = hex_decode_with_case(text, &mut room, case).map(|bytes| bytes.to_vec());
            assert_eq!(told.as_deref().map_err(|&error| error), answer);
            let written = answer.map_or(0, <[u8]>::len);
            assert_eq!(room[..written], *answer.unwrap_or(&[]));
            assert!(room[written..].iter().all(|&byte| byte == 0xa5));
        }
    }

    #[test]
    fn white_space_is_skipped_at_each_place() {
        for len in 0..100 {
            let digits: std::vec::Vec<u8> = (0..len).map(|at| b"0123456789aBcDeF"[at % 16]).collect();
            let mut bytes = [0xa5; 50];
            let answer = hex_decode(&digits, &mut bytes).map(|bytes| bytes.to_vec());
            for (at, space) in (0..=len).flat_map(|at| b" \t\n\x0c\r".map(|space| (at, space))) {
                let (front, back) = digits.split_at(at);
                let mut room = [0xa5; 50];
                let told = hex_decode_spaced(&[front, &[space], back].concat(), &mut room);
                assert_eq!(told.map(|bytes| bytes.to_vec()), answer);
                assert_eq!(room, bytes);
            }
        }
        let wanted: [(&[u8], CheckCase, Error); 5] = [
            (b" 0g0 h00 g", CheckCase::None, ODD),
            (b" 0g0 h0 0g0", CheckCase::None, small(4)),
            (b" 0\x0bg0", CheckCase::None, invalid(2, 0x0b)),
            (b" 0g 0h", CheckCase::None, invalid(2, b'g')),
            (b"0 1F\nF", CheckCase::Lower, invalid(3, b'F')),
        ];
        for (text, case, error) in wanted {
            let mut room = [0xa5; 3];
            assert_eq!(hex_decode_spaced_with_case(text, &mut room, case), Err(error));
            assert_eq!(room, [0xa5; 3]);
        }
    }

    #[test]
    fn an_array_takes_exactly_its_digits() {
        let wanted: [(&[u8], Result<[u8; 2], Error>); 7] = [
            (b"01fF", Ok([0x01, 0xff])),
            (b"0g0h", Err(invalid(1, b'g'))),
            (b"000g", Err(invalid(3, b'g'))),
            (b"0g", Err(mismatch(1))),
            (b"", Err(mismatch(0))),
            (b"0g0h0000", Err(mismatch(4))),
            (b"0g0h0", Err(ODD)),
        ];
        for (text, answer) in wanted {
            assert_eq!(hex_decode_array(text), answer);
        }
        assert_eq!(hex_decode_array_with_case(b"01ff", CheckCase::Upper), Err::<[u8; 2], _>(invalid(2, b'f')));
    }

    #[test]
    fn a_check_takes_each_length() {
        let wanted: [(&[u8], [bool; 3]); 6] = [
            (b"", [true, true, true]),
            (b"012", [true, true, true]),
            (b"0aF", [true, false, false]),
            (b"0af", [true, true, false]),
            (b"0AF", [true, false, true]),
            (b"0x0", [false, false, false]),
        ];
        for (text, answers) in wanted {
            let cases = [CheckCase::None, CheckCase::Lower, CheckCase::Upper];
            assert_eq!(cases.map(|case| hex_check_with_case(text, case)), answers);
            assert_eq!(hex_check(text), answers[0]);
        }
    }

    #[cfg(feature = "alloc")]
    #[test]
    fn a_vector_has_room_for_its_bytes_alone() {
        for len in 0..300 {
            let digits = std::vec![b'a'; 2 * len];
            let bytes = hex_decode_vec(&digits).unwrap();
            assert_eq!((bytes.len(), bytes.capacity()), (len, len));
            assert!(bytes.iter().all(|&byte| byte == 0xaa));
        }
        assert_eq!(hex_decode_vec(b"0g0"), Err(ODD));
        assert_eq!(hex_decode_vec(b"0a0g"), Err(invalid(3, b'g')));
        assert_eq!(hex_decode_vec_with_case(b"0A", CheckCase::Lower), Err(invalid(1, b'A')));
    }
}
