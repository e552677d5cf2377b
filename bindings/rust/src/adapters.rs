//! The twelve modules for `serde`, which write bytes as texts, and what they share.

use alloc::{borrow::Cow, string::String, vec::Vec};
use core::{fmt, str};

use serde::de::{self, Deserialize, Deserializer, Unexpected, Visitor};
use serde::ser::{self, Serialize, Serializer};

use crate::encode::{append, encode};
use crate::{hex_decode_array_with_case, hex_decode_vec_with_case, CheckCase, Error};

/// The length up to which a text is written without an allocation: that of `0x` and the digits of 65 bytes.
const SHORT: usize = 132;

/// The form of a text: what precedes the digits, and which letters are digits.
#[derive(Clone, Copy)]
struct WireFormat {
    prefix: &'static str,
    case: CheckCase,
}

impl WireFormat {
    fn write<S: Serializer>(self, bytes: &[u8], serializer: S) -> Result<S::Ok, S::Error> {
        let (front, upper) = (self.prefix.len(), self.case == CheckCase::Upper);
        let len = bytes
            .len()
            .checked_mul(2)
            .and_then(|len| len.checked_add(front));
        let len = len.ok_or_else(|| ser::Error::custom(Error::Overflow))?;
        if len > SHORT {
            let mut text = String::with_capacity(len);
            text.push_str(self.prefix);
            append(bytes, &mut text, upper);
            return serializer.serialize_str(&text);
        }
        let mut room = [0; SHORT];
        room[..front].copy_from_slice(self.prefix.as_bytes());
        encode(bytes, &mut room[front..], upper).map_err(ser::Error::custom)?;
        serializer.serialize_str(str::from_utf8(&room[..len]).map_err(ser::Error::custom)?)
    }

    /// Returns what follows the prefix, if this is an even number of bytes.
    fn digits<E: de::Error>(self, text: &str) -> Result<&[u8], E> {
        let digits = text
            .strip_prefix(self.prefix)
            .ok_or_else(|| E::custom("invalid prefix"))?;
        if digits.len() % 2 == 1 {
            return Err(E::custom("invalid length"));
        }
        Ok(digits.as_bytes())
    }

    fn read<E: de::Error, T>(self, text: &Text<'_>, max: usize) -> Result<T, E>
    where
        T: FromIterator<u8>,
    {
        let digits = self.digits::<E>(&text.0)?;
        let len = digits.len() / 2;
        if len > max {
            return Err(E::custom(format_args!(
                "expected at most {max} decoded bytes, got {len}"
            )));
        }
        let bytes = hex_decode_vec_with_case(digits, self.case).map_err(E::custom)?;
        Ok(bytes.into_iter().collect())
    }

    fn read_array<E: de::Error, const N: usize>(self, text: &Text<'_>) -> Result<[u8; N], E> {
        hex_decode_array_with_case(self.digits::<E>(&text.0)?, self.case).map_err(E::custom)
    }
}

/// Bytes with the format in which they are written. It implements `Serialize`, so that a serializer accepts it
/// as the value of `Some`.
struct Written<'a>(WireFormat, &'a [u8]);

impl Serialize for Written<'_> {
    fn serialize<S: Serializer>(&self, serializer: S) -> Result<S::Ok, S::Error> {
        self.0.write(self.1, serializer)
    }
}

/// A text. It is read as a `String` would be. If the source lends it, it is borrowed. It is decoded after the
/// deserializer has ended, so that the deserializer does not add its own place to the error.
struct Text<'de>(Cow<'de, str>);

impl<'de> Deserialize<'de> for Text<'de> {
    fn deserialize<D: Deserializer<'de>>(deserializer: D) -> Result<Self, D::Error> {
        deserializer.deserialize_string(TextVisitor)
    }
}

struct TextVisitor;

impl<'de> Visitor<'de> for TextVisitor {
    type Value = Text<'de>;

    fn expecting(&self, f: &mut fmt::Formatter<'_>) -> fmt::Result {
        f.write_str("a string")
    }

    fn visit_borrowed_str<E: de::Error>(self, text: &'de str) -> Result<Text<'de>, E> {
        Ok(Text(text.into()))
    }

    fn visit_str<E: de::Error>(self, text: &str) -> Result<Text<'de>, E> {
        self.visit_string(text.into())
    }

    fn visit_string<E: de::Error>(self, text: String) -> Result<Text<'de>, E> {
        Ok(Text(text.into()))
    }

    fn visit_bytes<E: de::Error>(self, bytes: &[u8]) -> Result<Text<'de>, E> {
        self.visit_str(text_of(bytes)?)
    }

    fn visit_borrowed_bytes<E: de::Error>(self, bytes: &'de [u8]) -> Result<Text<'de>, E> {
        self.visit_borrowed_str(text_of(bytes)?)
    }

    fn visit_byte_buf<E: de::Error>(self, bytes: Vec<u8>) -> Result<Text<'de>, E> {
        match String::from_utf8(bytes) {
            Ok(text) => self.visit_string(text),
            Err(refused) => Err(no_text(refused.as_bytes())),
        }
    }
}

fn text_of<E: de::Error>(bytes: &[u8]) -> Result<&str, E> {
    str::from_utf8(bytes).map_err(|_| no_text(bytes))
}

fn no_text<E: de::Error>(bytes: &[u8]) -> E {
    E::invalid_value(Unexpected::Bytes(bytes), &TextVisitor)
}

/// Makes two modules from each line. A line has their names, the prefix, the case, the text of `[0x12, 0xab]`,
/// and the documentation of the format.
macro_rules! modules {
    ($($name:ident $option:ident $prefix:literal $case:ident $shown:literal $about:literal;)*) => { $(
        #[doc = $about]
        ///
        /// ```
        /// use serde::{Deserialize, Serialize};
        ///
        /// #[derive(Serialize, Deserialize)]
        /// struct Record {
        #[doc = concat!("    #[serde(with = \"faster_hex::", stringify!($name), "\")]")]
        ///     bytes: Vec<u8>,
        #[doc = concat!("    #[serde(with = \"faster_hex::", stringify!($name), "::array\")]")]
        ///     id: [u8; 2],
        /// }
        ///
        /// let record = Record { bytes: vec![], id: [0x12, 0xab] };
        /// let json = serde_json::to_string(&record)?;
        #[doc = concat!("assert_eq!(json, r#\"{\"bytes\":\"", $prefix, "\",\"id\":\"", $shown, "\"}\"#);")]
        /// assert_eq!(serde_json::from_str::<Record>(&json)?.id, record.id);
        /// # Ok::<(), serde_json::Error>(())
        /// ```
        pub mod $name {
            use super::{CheckCase, Deserialize, Deserializer, Serializer, Text, WireFormat};

            pub(super) const FORMAT: WireFormat =
                WireFormat { prefix: $prefix, case: CheckCase::$case };

            /// Writes the bytes as a string. Calls `as_ref` once. Allocates nothing for up to 65 bytes.
            ///
            /// # Errors
            ///
            /// [`Error::Overflow`](crate::Error::Overflow), as an error of the serializer, if the length of
            /// the text exceeds `usize`, and the serializer's own errors.
            ///
            /// # Panics
            ///
            /// If that length fits `usize`, but exceeds `isize::MAX`.
            pub fn serialize<S, T>(data: T, serializer: S) -> Result<S::Ok, S::Error>
            where
                S: Serializer,
                T: AsRef<[u8]>,
            {
                FORMAT.write(data.as_ref(), serializer)
            }

            /// Reads a string, decodes it, and collects the bytes.
            ///
            /// # Errors
            ///
            /// The first that applies:
            ///
            /// 1. an error of the deserializer, for example if there is no string;
            /// 2. `invalid prefix` if the string does not begin with the prefix of the format;
            /// 3. `invalid length` if an odd number of bytes follows;
            /// 4. [`Error::InvalidChar`](crate::Error::InvalidChar) with the first byte that is not a digit
            ///    of the format, and its index, counted from the first byte after the prefix.
            pub fn deserialize<'de, D, T>(deserializer: D) -> Result<T, D::Error>
            where
                D: Deserializer<'de>,
                T: FromIterator<u8>,
            {
                deserialize_bounded::<{ usize::MAX }, D, T>(deserializer)
            }

            /// Like [`deserialize`], but for at most `MAX` bytes.
            ///
            /// ```
            /// #[derive(serde::Deserialize)]
            /// struct Record {
            ///     #[serde(deserialize_with =
            #[doc = concat!("        \"faster_hex::", stringify!($name), "::deserialize_bounded::<1, _, _>\")]")]
            ///     bytes: Vec<u8>,
            /// }
            ///
            #[doc = concat!("let read = serde_json::from_str::<Record>(r#\"{\"bytes\":\"", $shown, "\"}\"#);")]
            /// let error = read.map(|it| it.bytes).unwrap_err().to_string();
            /// assert!(error.starts_with("expected at most 1 decoded bytes, got 2"));
            /// ```
            ///
            /// # Errors
            ///
            /// Those of [`deserialize`], in its order. Before the last of them, which is about an invalid
            /// digit, comes `expected at most MAX decoded bytes, got N`, if `2 * N` bytes follow the prefix
            /// and `N` is more than `MAX`. In that case no byte was decoded.
            pub fn deserialize_bounded<'de, const MAX: usize, D, T>(
                deserializer: D,
            ) -> Result<T, D::Error>
            where
                D: Deserializer<'de>,
                T: FromIterator<u8>,
            {
                FORMAT.read(&Text::deserialize(deserializer)?, MAX)
            }

            /// The same format for arrays: `#[serde(with = "..::array")]`.
            pub mod array {
                use super::{Deserialize, Deserializer, Text, FORMAT};

                pub use super::serialize;

                /// Reads a string, and decodes it to exactly `N` bytes.
                ///
                /// # Errors
                ///
                /// Those of [`deserialize`](super::deserialize). Before the last of them comes
                /// [`Error::LengthMismatch`](crate::Error::LengthMismatch), if the string does not have the
                /// digits of exactly `N` bytes.
                pub fn deserialize<'de, D, const N: usize>(deserializer: D) -> Result<[u8; N], D::Error>
                where
                    D: Deserializer<'de>,
                {
                    FORMAT.read_array(&Text::deserialize(deserializer)?)
                }
            }
        }

        #[doc = concat!("An `Option` of bytes, in the format of [`", stringify!($name), "`](crate::",
            stringify!($name), ").")]
        ///
        /// ```
        /// use serde::{Deserialize, Serialize};
        ///
        /// #[derive(Serialize, Deserialize)]
        /// struct Record {
        #[doc = concat!("    #[serde(default, with = \"faster_hex::", stringify!($option), "\")]")]
        ///     bytes: Option<Vec<u8>>,
        /// }
        ///
        /// let json = serde_json::to_string(&Record { bytes: Some(vec![0x12, 0xab]) })?;
        #[doc = concat!("assert_eq!(json, r#\"{\"bytes\":\"", $shown, "\"}\"#);")]
        /// assert_eq!(serde_json::from_str::<Record>("{}")?.bytes, None);
        /// # Ok::<(), serde_json::Error>(())
        /// ```
        pub mod $option {
            use super::$name::FORMAT;
            use super::{Deserialize, Deserializer, Serializer, Text, Written};

            /// Writes `Some` as a string, and `None` as the data format writes it. Calls `as_ref` once.
            ///
            /// # Errors
            ///
            /// Those of the module without `option_`.
            ///
            /// # Panics
            ///
            /// As `serialize` of the module without `option_` does.
            pub fn serialize<S, T>(data: &Option<T>, serializer: S) -> Result<S::Ok, S::Error>
            where
                S: Serializer,
                T: AsRef<[u8]>,
            {
                match data {
                    Some(data) => serializer.serialize_some(&Written(FORMAT, data.as_ref())),
                    None => serializer.serialize_none(),
                }
            }

            /// Reads an optional string. If there is one, decodes it and collects the bytes.
            ///
            /// # Errors
            ///
            /// Those of the module without `option_`. A string that is invalid is an error, not `None`.
            pub fn deserialize<'de, D, T>(deserializer: D) -> Result<Option<T>, D::Error>
            where
                D: Deserializer<'de>,
                T: FromIterator<u8>,
            {
                deserialize_bounded::<{ usize::MAX }, D, T>(deserializer)
            }

            /// Like [`deserialize`], but for at most `MAX` bytes.
            ///
            /// # Errors
            ///
            /// Those of the module without `option_`.
            pub fn deserialize_bounded<'de, const MAX: usize, D, T>(
                deserializer: D,
            ) -> Result<Option<T>, D::Error>
            where
                D: Deserializer<'de>,
                T: FromIterator<u8>,
            {
                let text = Option::<Text>::deserialize(deserializer)?;
                text.map(|text| FORMAT.read(&text, MAX)).transpose()
            }

            /// The same format for arrays: `#[serde(with = "..::array")]`.
            pub mod array {
                use super::{Deserialize, Deserializer, Text, FORMAT};

                pub use super::serialize;

                /// Reads an optional string. If there is one, decodes it to exactly `N` bytes.
                ///
                /// # Errors
                ///
                /// Those of the module without `option_`.
                pub fn deserialize<'de, D, const N: usize>(
                    deserializer: D,
                ) -> Result<Option<[u8; N]>, D::Error>
                where
                    D: Deserializer<'de>,
                {
                    let text = Option::<Text>::deserialize(deserializer)?;
                    text.map(|text| FORMAT.read_array(&text)).transpose()
                }
            }
        }
    )* };
}

modules! {
    withpfx_ignorecase option_withpfx_ignorecase "0x" None "0x12ab"
        "`0x`, then digits. Writes lowercase, reads either case. The root of the crate has these calls too.";
    nopfx_ignorecase option_nopfx_ignorecase "" None "12ab"
        "Digits without a prefix. Writes lowercase, reads either case.";
    withpfx_lowercase option_withpfx_lowercase "0x" Lower "0x12ab"
        "`0x`, then lowercase digits.";
    nopfx_lowercase option_nopfx_lowercase "" Lower "12ab"
        "Lowercase digits without a prefix.";
    withpfx_uppercase option_withpfx_uppercase "0x" Upper "0x12AB"
        "`0x`, then uppercase digits.";
    nopfx_uppercase option_nopfx_uppercase "" Upper "12AB"
        "Uppercase digits without a prefix.";
}
