//! The error of encoding and decoding.

use core::fmt;

/// Why a call failed. If several things are wrong, it is the first in the order that the call
/// lists.
///
/// ```
/// use faster_hex::{hex_decode, Error};
///
/// let error = hex_decode(b"0011", &mut [0; 1]).unwrap_err();
/// assert!(matches!(error, Error::OutputTooSmall { required: 2, .. }));
/// assert_eq!(error.to_string(), "output requires at least 2 bytes");
/// ```
#[derive(Clone, Copy, Debug, PartialEq, Eq, Hash)]
#[non_exhaustive]
pub enum Error {
    /// A byte that is not a hex digit, or a letter in a case that the policy does not accept.
    #[non_exhaustive]
    InvalidChar {
        /// The index of the first such byte in the source, from 0.
        index: usize,
        /// That byte.
        byte: u8,
    },
    /// The destination is shorter than the output.
    #[non_exhaustive]
    OutputTooSmall {
        /// The length of the output, in bytes.
        required: usize,
    },
    /// The source does not have exactly two digits for each byte of the array.
    #[non_exhaustive]
    LengthMismatch {
        /// The length of the array, in bytes.
        expected: usize,
        /// Half the length of the source.
        actual: usize,
    },
    /// The source has an odd number of bytes. White space that is skipped does not count.
    OddLength,
    /// The length of the output exceeds `usize`. No slice has so many digits.
    Overflow,
}

impl fmt::Display for Error {
    fn fmt(&self, f: &mut fmt::Formatter<'_>) -> fmt::Result {
        match self {
            Error::InvalidChar { index, byte } => {
                write!(f, "invalid hex byte 0x{byte:02x} at index {index}")
            }
            Error::OutputTooSmall { required } => {
                write!(f, "output requires at least {required} bytes")
            }
            Error::LengthMismatch { expected, actual } => {
                write!(f, "expected {expected} decoded bytes, got {actual}")
            }
            Error::OddLength => f.write_str("hex input length must be even"),
            Error::Overflow => f.write_str("encoded length overflow"),
        }
    }
}

impl core::error::Error for Error {}

#[cfg(test)]
mod tests {
    use super::*;
    use core::hash::{Hash, Hasher};
    use std::{collections::hash_map::DefaultHasher, string::ToString};

    const fn has_traits<T>()
    where
        T: Copy + fmt::Debug + fmt::Display + Eq + Hash + core::error::Error,
        T: Send + Sync + Unpin + 'static,
    {
    }
    const _: () = has_traits::<Error>();

    const TEXTS: [(Error, &str); 8] = [
        (
            Error::InvalidChar { index: 3, byte: b'g' },
            "invalid hex byte 0x67 at index 3",
        ),
        (
            Error::InvalidChar { index: 0, byte: 0x0a },
            "invalid hex byte 0x0a at index 0",
        ),
        (
            Error::InvalidChar { index: 12, byte: 0xfe },
            "invalid hex byte 0xfe at index 12",
        ),
        (
            Error::OutputTooSmall { required: 2 },
            "output requires at least 2 bytes",
        ),
        (
            Error::LengthMismatch { expected: 4, actual: 3 },
            "expected 4 decoded bytes, got 3",
        ),
        (
            Error::LengthMismatch { expected: 3, actual: 4 },
            "expected 3 decoded bytes, got 4",
        ),
        (Error::OddLength, "hex input length must be even"),
        (Error::Overflow, "encoded length overflow"),
    ];

    fn hash_of(error: Error) -> u64 {
        let mut state = DefaultHasher::new();
        error.hash(&mut state);
        state.finish()
    }

    #[test]
    fn each_error_has_its_text() {
        for (error, text) in TEXTS {
            assert_eq!(error.to_string(), text);
        }
    }

    #[test]
    fn errors_are_equal_only_to_themselves() {
        for (at, (one, _)) in TEXTS.into_iter().enumerate() {
            for (place, (other, _)) in TEXTS.into_iter().enumerate() {
                assert_eq!(one == other, at == place);
                assert_eq!(hash_of(one) == hash_of(other), at == place);
            }
        }
    }
}
