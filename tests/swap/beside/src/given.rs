//! Random inputs, and texts as a data format of serde gives them.

use std::str;

use serde::de::{value::Error, Deserializer, Visitor};
use serde::forward_to_deserialize_any;

/// xorshift64*, so that a seed names its inputs on any machine.
pub struct Random(u64);

impl Random {
    pub fn new(seed: u64, kind: usize) -> Random {
        Random(seed.max(1).wrapping_mul(kind as u64 * 2 + 1))
    }

    fn below(&mut self, end: usize) -> usize {
        self.0 ^= self.0 >> 12;
        self.0 ^= self.0 << 25;
        self.0 ^= self.0 >> 27;
        (self.0.wrapping_mul(0x2545_f491_4f6c_dd1d) >> 33) as usize % end
    }

    /// Mostly short; some are longer than all lengths at which a call changes its way.
    fn len(&mut self) -> usize {
        let longest = [4, 4, 20, 20, 70, 70, 300, 3000][self.below(8)];
        self.below(longest + 1)
    }

    fn bytes(&mut self, len: usize) -> Vec<u8> {
        (0..len).map(|_| self.below(256) as u8).collect()
    }

    /// Digits of both cases, of lowercase, or of uppercase. In one of four texts, one byte may be any byte.
    fn digits(&mut self, len: usize) -> Vec<u8> {
        let letters: &[u8] = [&b"0123456789abcdefABCDEF"[..], b"0123456789abcdef", b"0123456789ABCDEF"]
            [self.below(3)];
        let mut digits: Vec<u8> = (0..len).map(|_| letters[self.below(letters.len())]).collect();
        if len > 0 && self.below(4) == 0 {
            let place = self.below(len);
            digits[place] = self.below(256) as u8;
        }
        digits
    }
}

/// What a call is given.
pub struct Input {
    pub bytes: Vec<u8>,
    pub digits: Vec<u8>,
    /// How long the destination is: about as long as it must be, or any length.
    pub room: usize,
    pub case: usize,
    pub width: usize,
    /// A prefix or none, and digits.
    text: Vec<u8>,
    /// By which call of a visitor `text` is given.
    way: usize,
}

impl Input {
    pub fn new(random: &mut Random) -> Input {
        let len = random.len();
        let mut digits = random.digits(2 * len);
        if random.below(8) == 0 {
            digits.pop();
        }
        let about = [len, 2 * len][random.below(2)];
        let room = match random.below(4) {
            0 => random.len(),
            1 => about.saturating_sub(1),
            2 => about,
            _ => about + random.below(40),
        };
        Input {
            bytes: random.bytes(len),
            room,
            case: random.below(3),
            width: random.len(),
            text: [[&b"0x"[..], b"", b"0x", b"", b"0X"][random.below(5)], &digits].concat(),
            way: random.below(8),
            digits,
        }
    }

    pub fn data(&self) -> Option<&[u8]> {
        (self.way > 0).then_some(&self.bytes[..])
    }

    pub fn given(&self) -> Given<'_> {
        Given { way: self.way, text: &self.text }
    }
}

/// Gives a text by a call of the visitor, or nothing, or a number.
pub struct Given<'a> {
    way: usize,
    text: &'a [u8],
}

impl<'de> Deserializer<'de> for Given<'de> {
    type Error = Error;

    fn deserialize_any<V: Visitor<'de>>(self, visitor: V) -> Result<V::Value, Error> {
        match (self.way, str::from_utf8(self.text)) {
            (0, _) => visitor.visit_unit(),
            (1, _) => visitor.visit_bytes(self.text),
            (2, _) => visitor.visit_borrowed_bytes(self.text),
            (3, _) => visitor.visit_byte_buf(self.text.into()),
            (4, Ok(text)) => visitor.visit_str(text),
            (5, Ok(text)) => visitor.visit_borrowed_str(text),
            (6, Ok(text)) => visitor.visit_string(text.into()),
            _ => visitor.visit_u64(7),
        }
    }

    fn deserialize_option<V: Visitor<'de>>(self, visitor: V) -> Result<V::Value, Error> {
        if self.way == 0 {
            return visitor.visit_none();
        }
        visitor.visit_some(self)
    }

    forward_to_deserialize_any! {
        bool i8 i16 i32 i64 i128 u8 u16 u32 u64 u128 f32 f64 char str string bytes byte_buf unit unit_struct
        newtype_struct seq tuple tuple_struct map struct enum identifier ignored_any
    }
}
