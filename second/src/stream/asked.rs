//! What a case that asks for room left is about; it stands in the header, where other calls have the bytes of a
//! room for an image and the steps of a run.

use crate::bytes::{put_u32, u32_at};

/// Where the reserve stands in a header.
const RESERVE_AT: usize = 24;
/// Where the id stands in a header.
const ID_AT: usize = 28;

/// The reserve that room is asked of, and the id of the task whose heaviest chain is asked for.
#[derive(Clone, Copy, PartialEq, Eq, Debug, Default)]
pub struct Asked {
    pub reserve: u32,
    pub id: u32,
}

impl Asked {
    /// Writes reserve and id to a header.
    pub fn put(self, header: &mut [u8]) {
        put_u32(header, RESERVE_AT, self.reserve);
        put_u32(header, ID_AT, self.id);
    }

    /// Takes reserve and id out of a header, which then has no lengths there.
    pub fn take(header: &mut [u8]) -> Asked {
        let asked = Asked {
            reserve: u32_at(header, RESERVE_AT),
            id: u32_at(header, ID_AT),
        };
        Asked::default().put(header);
        asked
    }
}
