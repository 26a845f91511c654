//! How many chains a bound call with a limit may open; it stands in the header, where other calls have the bytes of a
//! room for an image.

use crate::bytes::{put_u32, u32_at};

/// Where the limit stands in a header.
const LIMIT_AT: usize = 24;

/// Writes a limit to a header.
pub fn put(limit: u32, header: &mut [u8]) {
    put_u32(header, LIMIT_AT, limit);
}

/// Takes a limit out of a header, which then has no length there.
pub fn take(header: &mut [u8]) -> u32 {
    let limit = u32_at(header, LIMIT_AT);
    put(0, header);
    limit
}
