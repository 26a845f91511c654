//! The steps of a run in a stream.

use std::io::{self, Read, Write};

use crate::stream::parts::{
    lengths_in, put_lengths, read_bytes, Length, MOST_IMAGE, MOST_ROOM, MOST_ROWS,
};

/// What each byte of the room that a step lends holds before the call.
pub const LENT_BYTE: u8 = u8::MAX;
/// What each row of the map that a step lends holds before the call.
pub const LENT_ROW: u64 = u64::MAX;

const HEADER_BYTES: usize = 12;
/// The patch's bytes, the map's rows and the room's bytes.
const LENGTHS: [Length; 3] = [(0, MOST_IMAGE), (4, MOST_ROWS), (8, MOST_ROOM)];

/// One patch of a run, and how much map and room is lent for its outcome.
#[derive(Clone, PartialEq, Eq, Debug)]
pub struct Step {
    pub patch: Vec<u8>,
    pub map_rows: usize,
    pub room_bytes: usize,
}

impl Step {
    /// Writes the step as it stands in a stream.
    pub fn write(&self, output: &mut impl Write) -> io::Result<()> {
        let mut header = [0; HEADER_BYTES];
        let lengths = [self.patch.len(), self.map_rows, self.room_bytes];
        put_lengths(&mut header, &LENGTHS, lengths);
        output.write_all(&header)?;
        output.write_all(&self.patch)
    }

    /// The next step of a stream.
    pub fn read(input: &mut impl Read) -> io::Result<Step> {
        let header = read_bytes(input, HEADER_BYTES)?;
        let [patch, map_rows, room_bytes] = lengths_in(&header, &LENGTHS)?;
        Ok(Step {
            patch: read_bytes(input, patch)?,
            map_rows,
            room_bytes,
        })
    }
}
