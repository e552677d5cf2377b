//! A view of bytes that prints them as hex digits.

use core::fmt::{self, Alignment, Write};
use core::mem::MaybeUninit;

use crate::encode::encode_into;

/// The most bytes that are encoded at a time.
const CHUNK: usize = 512;

/// Copies of the usual fill characters. Writing many characters at once is faster than writing them one by one.
const SPACES: &str = "                                ";
const ZEROS: &str = "00000000000000000000000000000000";

/// A view of bytes that prints them as digits: lowercase by `{}` and `{:x}`, uppercase by `{:X}`. It borrows
/// the bytes, and allocates nothing.
///
/// The flags are those of `{:x}` for an integer, and `{}` takes them too: `#` for the prefix `0x`, `+`, a width
/// with fill and alignment, `0`. Precision and `-` are not read.
///
/// ```
/// use faster_hex::Hex;
///
/// let bytes = [0, 0xab, 0xcd];
/// assert_eq!(format!("{}", Hex::new(&bytes)), "00abcd");
/// assert_eq!(format!("{:#012X}", Hex::new(&bytes)), "0x000000ABCD");
/// assert_eq!(format!("{:-^10x}", Hex::new(&bytes)), "--00abcd--");
/// ```
#[derive(Clone, Copy, Debug)]
#[must_use]
pub struct Hex<'a> {
    bytes: &'a [u8],
}

impl<'a> Hex<'a> {
    /// A view of `bytes`.
    ///
    /// ```
    /// const ID: faster_hex::Hex<'static> = faster_hex::Hex::new(&[0, 0xab]);
    /// assert_eq!(ID.to_string(), "00ab");
    /// ```
    pub const fn new(bytes: &'a [u8]) -> Self {
        Hex { bytes }
    }

    /// Writes the text according to the formatter's flags.
    #[inline]
    fn show(&self, f: &mut fmt::Formatter<'_>, upper: bool) -> fmt::Result {
        if f.width().is_some() {
            return self.show_padded(f, upper);
        }
        if f.sign_plus() || f.alternate() {
            f.write_str(front_of(f))?;
        }
        self.write_digits(f, upper)
    }

    // This is a function of its own, because a text without a width takes longer with this code beside it.
    #[cold]
    #[inline(never)]
    fn show_padded(&self, f: &mut fmt::Formatter<'_>, upper: bool) -> fmt::Result {
        let front = front_of(f);
        // The number of digits may exceed `usize`, so the number of bytes is subtracted twice.
        let missing = f
            .width()
            .unwrap_or(0)
            .saturating_sub(front.len())
            .saturating_sub(self.bytes.len())
            .saturating_sub(self.bytes.len());
        let (before, zeros, behind) = if f.sign_aware_zero_pad() {
            (0, missing, 0)
        } else {
            match f.align() {
                Some(Alignment::Left) => (0, 0, missing),
                Some(Alignment::Center) => (missing / 2, 0, missing - missing / 2),
                _ => (missing, 0, 0),
            }
        };
        let fill = f.fill();
        write_copies(f, fill, before)?;
        // Without this test, an empty text would cost a call of the writer.
        if !front.is_empty() {
            f.write_str(front)?;
        }
        write_copies(f, '0', zeros)?;
        self.write_digits(f, upper)?;
        write_copies(f, fill, behind)
    }

    #[inline]
    fn write_digits(&self, f: &mut fmt::Formatter<'_>, upper: bool) -> fmt::Result {
        if self.bytes.len() <= CHUNK {
            return write_chunk(self.bytes, f, upper);
        }
        self.write_chunks(f, upper)
    }

    // The loop uses registers that a function must save. Inlined, it made a short text up to a tenth slower.
    #[inline(never)]
    fn write_chunks(&self, f: &mut fmt::Formatter<'_>, upper: bool) -> fmt::Result {
        let mut chunks = self.bytes.chunks(CHUNK);
        chunks.try_for_each(|chunk| write_chunk(chunk, f, upper))
    }
}

/// The text before the digits.
fn front_of(f: &fmt::Formatter<'_>) -> &'static str {
    match (f.sign_plus(), f.alternate()) {
        (true, true) => "+0x",
        (true, false) => "+",
        (false, true) => "0x",
        (false, false) => "",
    }
}

#[inline]
fn write_chunk(bytes: &[u8], f: &mut fmt::Formatter<'_>, upper: bool) -> fmt::Result {
    let mut room = [MaybeUninit::uninit(); 2 * CHUNK];
    f.write_str(encode_into(bytes, &mut room, upper).map_err(|_| fmt::Error)?)
}

fn write_copies(f: &mut fmt::Formatter<'_>, fill: char, mut count: usize) -> fmt::Result {
    let copies = match fill {
        ' ' => SPACES,
        '0' => ZEROS,
        _ => return (0..count).try_for_each(|_| f.write_char(fill)),
    };
    while count > 0 {
        let some = count.min(copies.len());
        f.write_str(&copies[..some])?;
        count -= some;
    }
    Ok(())
}

impl fmt::Display for Hex<'_> {
    #[inline]
    fn fmt(&self, f: &mut fmt::Formatter<'_>) -> fmt::Result {
        self.show(f, false)
    }
}

impl fmt::LowerHex for Hex<'_> {
    #[inline]
    fn fmt(&self, f: &mut fmt::Formatter<'_>) -> fmt::Result {
        self.show(f, false)
    }
}

impl fmt::UpperHex for Hex<'_> {
    #[inline]
    fn fmt(&self, f: &mut fmt::Formatter<'_>) -> fmt::Result {
        self.show(f, true)
    }
}

#[cfg(test)]
mod tests {
    use super::*;
    use std::{borrow::ToOwned, format, string::String, vec};

    const fn has_traits<T>()
    where
        T: Copy + fmt::Debug + fmt::Display + fmt::LowerHex + fmt::UpperHex,
        T: Send + Sync + Unpin,
    {
    }
    const _: () = has_traits::<Hex<'static>>();

    const BYTES: Hex<'static> = Hex::new(&[0x01, 0xab]);

    #[test]
    fn each_flag_has_its_effect() {
        let wanted = [
            (format!("{BYTES}"), "01ab"),
            (format!("{BYTES:x}"), "01ab"),
            (format!("{BYTES:X}"), "01AB"),
            (format!("{BYTES:#}"), "0x01ab"),
            (format!("{BYTES:#x}"), "0x01ab"),
            (format!("{BYTES:#X}"), "0x01AB"),
            (format!("{BYTES:+}"), "+01ab"),
            (format!("{BYTES:+#X}"), "+0x01AB"),
            (format!("{BYTES:-}"), "01ab"),
            (format!("{BYTES:.1}"), "01ab"),
            (format!("{:#}", Hex::new(&[])), "0x"),
        ];
        for (text, answer) in wanted {
            assert_eq!(text, answer);
        }
    }

    #[test]
    fn a_width_is_filled_on_its_side() {
        let wanted = [
            (format!("{BYTES:3}"), "01ab"),
            (format!("{BYTES:4}"), "01ab"),
            (format!("{BYTES:7}"), "   01ab"),
            (format!("{BYTES:>7}"), "   01ab"),
            (format!("{BYTES:<7}"), "01ab   "),
            (format!("{BYTES:^7}"), " 01ab  "),
            (format!("{BYTES:*^8X}"), "**01AB**"),
            (format!("{BYTES:0<7}"), "01ab000"),
            (format!("{BYTES:0>+7}"), "00+01ab"),
            (format!("{BYTES:07}"), "00001ab"),
            (format!("{BYTES:*<07}"), "00001ab"),
            (format!("{BYTES:+#09x}"), "+0x0001ab"),
            (format!("{BYTES:é^+#9}"), "é+0x01abé"),
            (format!("{:5}", Hex::new(&[])), "     "),
        ];
        for (text, answer) in wanted {
            assert_eq!(text, answer);
        }
    }

    #[test]
    fn long_texts_and_widths() {
        for len in [1, 31, 32, 33, 511, 512, 513, 1024, 1025] {
            let (bytes, digits) = (vec![0xab; len], "ab".repeat(len));
            let (hex, width) = (Hex::new(&bytes), 2 * len + len);
            assert_eq!(format!("{hex}"), digits);
            for (fill, text) in [
                (" ", format!("{hex:width$}")),
                ("0", format!("{hex:0width$}")),
                ("*", format!("{hex:*>width$}")),
            ] {
                assert_eq!(text, fill.repeat(len).to_owned() + &digits);
            }
        }
    }

    /// A writer that refuses what does not fit.
    struct Short(String, usize);

    impl Write for Short {
        fn write_str(&mut self, text: &str) -> fmt::Result {
            self.1 = self.1.checked_sub(text.len()).ok_or(fmt::Error)?;
            self.0.push_str(text);
            Ok(())
        }
    }

    #[test]
    fn an_error_of_the_writer_is_returned() {
        for room in 0..13 {
            let mut out = Short(String::new(), room);
            let told = write!(out, "{BYTES:*^+#13}");
            assert!(told.is_err() && "***+0x01ab***".starts_with(&out.0), "{room}");
        }
        let mut out = Short(String::new(), 13);
        assert!(write!(out, "{BYTES:*^+#13}").is_ok() && out.1 == 0);
    }
}
