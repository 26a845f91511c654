//! The digest that stands for a whole buffer in an answer.

const FACTOR: u64 = 65_599;
const MODULUS: u64 = 4_294_967_291;

/// The digest of a row of bytes; of nothing it is 1.
pub fn of_bytes(bytes: impl IntoIterator<Item = u8>) -> u64 {
    bytes.into_iter().fold(1, |digest, byte| {
        (digest * FACTOR + u64::from(byte) + 1) % MODULUS
    })
}

/// The digest of the rows of a map.
pub fn of_rows(rows: &[u64]) -> u64 {
    of_bytes(rows.iter().flat_map(|row| row.to_le_bytes()))
}

/// The digest of the entries of a room for ids.
pub fn of_ids(ids: &[u16]) -> u64 {
    of_bytes(ids.iter().flat_map(|id| id.to_le_bytes()))
}
