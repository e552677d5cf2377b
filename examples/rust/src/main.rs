//! Writes its argument's digits, and reads them back; then tests digits.

use std::env::args;

use faster_hex::{hex_check, hex_decode, hex_decode_with_case, hex_encode, CheckCase, Error};

fn main() -> Result<(), Error> {
    let word = args().nth(1).unwrap_or("hello".to_owned());
    let (mut digits, mut bytes) = ([0; 256], [0; 128]);

    let digits = hex_encode(word.as_bytes(), &mut digits)?;
    println!("{digits}");
    let word = hex_decode(digits.as_bytes(), &mut bytes)?;
    println!("{}", String::from_utf8_lossy(word));

    if let Err(error) = hex_decode_with_case(b"00Ff", &mut bytes, CheckCase::Lower) {
        println!("{error}");
    }
    let source = b"00Ffg0";
    if let Err(Error::InvalidChar { index, .. }) = hex_decode(source, &mut bytes) {
        assert!(hex_check(&source[..index]));
        println!("digits up to index {index}");
    }
    Ok(())
}
