//! The parts of a stream: lengths in a header, and rows of bytes, map rows and ids.

use std::io::{self, ErrorKind, Read};

use crate::bytes::{put_u32, u32_at};

/// The most bytes of an image.
pub const MOST_IMAGE: usize = 24_576;
/// The most rows of a map.
pub const MOST_ROWS: usize = 80;
/// The most bytes of a room for an image.
pub const MOST_ROOM: usize = 12_800;

/// Where a length stands in a header, and the most that it may be.
pub type Length = (usize, usize);

/// Writes lengths where they stand in a header.
pub fn put_lengths<const COUNT: usize>(
    header: &mut [u8],
    places: &[Length; COUNT],
    lengths: [usize; COUNT],
) {
    for ((at, _), length) in places.iter().zip(lengths) {
        put_u32(header, *at, length as u32);
    }
}

/// The lengths of a header, if none passes its limit.
pub fn lengths_in<const COUNT: usize>(
    header: &[u8],
    places: &[Length; COUNT],
) -> io::Result<[usize; COUNT]> {
    let lengths = places.map(|(at, _)| u32_at(header, at) as usize);
    let passes = |((_, most), length): (&Length, &usize)| length > most;
    match places.iter().zip(&lengths).any(passes) {
        true => Err(broken("a length past its limit")),
        false => Ok(lengths),
    }
}

/// The error for a stream that breaks its rules.
pub fn broken(what: &str) -> io::Error {
    io::Error::new(ErrorKind::InvalidData, format!("the stream has {what}"))
}

/// The next bytes of the stream.
pub fn read_bytes(input: &mut impl Read, length: usize) -> io::Result<Vec<u8>> {
    let mut bytes = vec![0; length];
    input
        .read_exact(&mut bytes)
        .map_err(|error| match error.kind() {
            ErrorKind::UnexpectedEof => broken("a case cut short"),
            _ => error,
        })?;
    Ok(bytes)
}

/// The next rows of the stream.
pub fn read_rows(input: &mut impl Read, rows: usize) -> io::Result<Vec<u64>> {
    let number = |_| {
        let mut bytes = [0; 8];
        bytes.copy_from_slice(&read_bytes(input, 8)?);
        Ok(u64::from_le_bytes(bytes))
    };
    (0..rows).map(number).collect()
}

/// The next ids of the stream.
pub fn read_ids(input: &mut impl Read, entries: usize) -> io::Result<Vec<u16>> {
    let bytes = read_bytes(input, 2 * entries)?;
    let number = |entry: &[u8]| u16::from_le_bytes([entry[0], entry[1]]);
    Ok(bytes.chunks_exact(2).map(number).collect())
}
