//! The tests of `faster-hex` are in `tests`.
