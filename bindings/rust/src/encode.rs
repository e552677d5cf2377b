//! Encoding bytes as digits.

#[cfg(feature = "alloc")]
use alloc::{string::String, vec::Vec};
use core::mem::MaybeUninit;
use core::{slice, str};

use crate::{calls, Error};

/// Gives a buffer the type that the functions of [`calls`] take as a destination.
///
/// # Safety
///
/// The caller writes only initialized bytes there.
#[inline]
pub(crate) unsafe fn room(dst: &mut [u8]) -> &mut [MaybeUninit<u8>] {
    // SAFETY: both types have the same layout, and the caller leaves each byte initialized.
    slice::from_raw_parts_mut(dst.as_mut_ptr().cast(), dst.len())
}

/// Writes the digits of `src` to the front of `dst`, and returns them.
#[inline]
pub(crate) fn encode<'a>(src: &[u8], dst: &'a mut [u8], upper: bool) -> Result<&'a mut str, Error> {
    // SAFETY: the call writes only digits there.
    encode_into(src, unsafe { room(dst) }, upper)
}

/// Like [`encode`], for a buffer that need not be initialized.
#[inline]
pub(crate) fn encode_into<'a>(
    src: &[u8],
    dst: &'a mut [MaybeUninit<u8>],
    upper: bool,
) -> Result<&'a mut str, Error> {
    let written = calls::encode(src, dst, upper)?;
    // SAFETY: the call has written as many bytes as it returns, and all of them are ASCII.
    unsafe {
        let digits = slice::from_raw_parts_mut(dst.as_mut_ptr().cast(), written);
        Ok(str::from_utf8_unchecked_mut(digits))
    }
}

/// Writes the lowercase digits of `src` into the front of `dst`, two for each byte, and returns them. The rest
/// of `dst` is unchanged.
///
/// # Errors
///
/// The first that applies; `dst` is then unchanged:
///
/// 1. [`Error::Overflow`] if the number of digits exceeds `usize`;
/// 2. [`Error::OutputTooSmall`] if `dst` is shorter than twice `src`.
///
/// ```
/// let mut digits = [b'-'; 7];
/// assert_eq!(faster_hex::hex_encode(&[0, 0xab, 0xff], &mut digits)?, "00abff");
/// assert_eq!(&digits, b"00abff-");
/// # Ok::<(), faster_hex::Error>(())
/// ```
#[inline]
pub fn hex_encode<'a>(src: &[u8], dst: &'a mut [u8]) -> Result<&'a mut str, Error> {
    encode(src, dst, false)
}

/// Like [`hex_encode`], in uppercase.
///
/// # Errors
///
/// Those of [`hex_encode`], in its order.
///
/// ```
/// let mut digits = [0; 6];
/// assert_eq!(faster_hex::hex_encode_upper(&[0, 0xab, 0xff], &mut digits)?, "00ABFF");
/// # Ok::<(), faster_hex::Error>(())
/// ```
#[inline]
pub fn hex_encode_upper<'a>(src: &[u8], dst: &'a mut [u8]) -> Result<&'a mut str, Error> {
    encode(src, dst, true)
}

#[cfg(feature = "alloc")]
const OVERFLOW: &str = "encoded length overflow";

/// Returns the lowercase digits of `src` in a new string. Requires the feature `alloc`.
///
/// # Panics
///
/// If the string would be longer than `isize::MAX` bytes.
///
/// ```
/// assert_eq!(faster_hex::hex_string(&[0, 0xab, 0xff]), "00abff");
/// ```
#[cfg(feature = "alloc")]
#[must_use]
#[inline]
pub fn hex_string(src: &[u8]) -> String {
    new_string(src, false)
}

/// Like [`hex_string`], in uppercase. Requires the feature `alloc`.
///
/// # Panics
///
/// As [`hex_string`] does.
///
/// ```
/// assert_eq!(faster_hex::hex_string_upper(&[0, 0xab, 0xff]), "00ABFF");
/// ```
#[cfg(feature = "alloc")]
#[must_use]
#[inline]
pub fn hex_string_upper(src: &[u8]) -> String {
    new_string(src, true)
}

/// Appends the lowercase digits of `src` to `dst`, and returns the part that is new. The string grows if its
/// capacity does not suffice. Requires the feature `alloc`.
///
/// # Panics
///
/// If the string would become longer than `isize::MAX` bytes.
///
/// ```
/// let mut text = String::from("id: ");
/// assert_eq!(faster_hex::hex_append(&[0xab, 0xcd], &mut text), "abcd");
/// assert_eq!(text, "id: abcd");
/// ```
#[cfg(feature = "alloc")]
pub fn hex_append<'a>(src: &[u8], dst: &'a mut String) -> &'a mut str {
    append(src, dst, false)
}

/// Like [`hex_append`], in uppercase. Requires the feature `alloc`.
///
/// # Panics
///
/// As [`hex_append`] does.
///
/// ```
/// let mut text = String::from("id: ");
/// assert_eq!(faster_hex::hex_append_upper(&[0xab, 0xcd], &mut text), "ABCD");
/// ```
#[cfg(feature = "alloc")]
pub fn hex_append_upper<'a>(src: &[u8], dst: &'a mut String) -> &'a mut str {
    append(src, dst, true)
}

// This is always inlined, because a function returns a string in memory. To load it from there right after it
// was stored is slow: 20 ns in place of 12.
#[cfg(feature = "alloc")]
#[inline(always)]
fn new_string(src: &[u8], upper: bool) -> String {
    let len = src.len().checked_mul(2).expect(OVERFLOW);
    let mut bytes = Vec::with_capacity(len);
    // The error is not printed, because the code for that would keep this from being inlined.
    assert!(calls::encode(src, bytes.spare_capacity_mut(), upper).is_ok());
    // SAFETY: the call has written `len` digits, which are ASCII.
    unsafe {
        bytes.set_len(len);
        String::from_utf8_unchecked(bytes)
    }
}

/// Appends the digits of `src` to `dst`, and returns them.
#[cfg(feature = "alloc")]
pub(crate) fn append<'a>(src: &[u8], dst: &'a mut String, upper: bool) -> &'a mut str {
    let start = dst.len();
    dst.reserve(src.len().checked_mul(2).expect(OVERFLOW));
    // SAFETY: the text grows by the digits that the call has written behind it, which are ASCII.
    unsafe {
        let bytes = dst.as_mut_vec();
        let written = calls::encode(src, bytes.spare_capacity_mut(), upper).expect(OVERFLOW);
        bytes.set_len(start + written);
        str::from_utf8_unchecked_mut(&mut bytes[start..])
    }
}

#[cfg(all(test, feature = "alloc"))]
mod tests {
    use super::*;
    use alloc::{format, vec, vec::Vec};

    #[test]
    fn appending_returns_the_new_part_of_each_length() {
        for len in 0..300 {
            let (bytes, digits): (Vec<u8>, _) = (vec![0xab; len], "ab".repeat(len));
            let mut text = String::from("id: ");
            assert_eq!(*hex_append(&bytes, &mut text), *digits);
            assert_eq!(*hex_append_upper(&bytes, &mut text), *digits.to_uppercase());
            assert_eq!(text, format!("id: {digits}{}", digits.to_uppercase()));
        }
    }

    #[test]
    fn a_string_has_room_for_its_digits_alone() {
        for len in 0..300 {
            let (bytes, digits): (Vec<u8>, _) = (vec![0xab; len], "ab".repeat(len));
            let (lower, upper) = (hex_string(&bytes), hex_string_upper(&bytes));
            assert_eq!((&lower, &upper), (&digits, &digits.to_uppercase()));
            assert_eq!((lower.capacity(), upper.capacity()), (2 * len, 2 * len));
        }
    }

    #[test]
    fn a_buffer_gets_the_digits_or_stays_as_it_was() {
        let wanted: [(&[u8], Result<&str, Error>); 4] = [
            (&[], Ok("")),
            (&[0xab], Ok("ab")),
            (&[0x01, 0xfe], Ok("01fe")),
            (&[1, 2, 3], Err(Error::OutputTooSmall { required: 6 })),
        ];
        for (bytes, answer) in wanted {
            let mut room = [b'-'; 5];
            let told = hex_encode(bytes, &mut room).map(|digits| String::from(digits));
            assert_eq!(told.as_deref().map_err(|&error| error), answer);
            let written = answer.map_or(0, str::len);
            assert_eq!(room[..written], *answer.unwrap_or("").as_bytes());
            assert!(room[written..].iter().all(|&byte| byte == b'-'));
        }
    }
}
