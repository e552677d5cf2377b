//! Takes the place of the crate `postcard`, which Debian has not: the two calls that tests make, over
//! `bincode`, another binary format that tags what is optional.

pub use bincode::{deserialize as from_bytes, Error};

pub fn to_slice<'a, T>(value: &T, room: &'a mut [u8]) -> Result<&'a mut [u8], Error>
where
    T: serde::Serialize + ?Sized,
{
    let len = bincode::serialized_size(value)? as usize;
    bincode::serialize_into(&mut *room, value)?;
    Ok(&mut room[..len])
}
