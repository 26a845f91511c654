//! The stream of cases: one header of 32 bytes for each case and then everything that is lent.

pub mod asked;
mod limit;
pub mod parts;
pub mod question;
pub mod step;

use std::io::{self, Read, Write};

use crate::afresh::Afresh;
use crate::stream::asked::Asked;
use crate::stream::parts::{
    broken, lengths_in, put_lengths, read_bytes, read_ids, read_rows, Length, MOST_IMAGE,
    MOST_ROOM, MOST_ROWS,
};
use crate::stream::step::{Step, LENT_BYTE, LENT_ROW};

const HEADER_BYTES: usize = 32;
/// The most ids of a room for them.
const MOST_IDS: usize = 96;
/// The most steps of a run.
const MOST_STEPS: usize = 32;

/// The calls that a case can make.
#[derive(Clone, Copy, PartialEq, Eq, Debug)]
pub enum Call {
    TableVerdict,
    PatchVerdict,
    Map,
    Bound,
    Patch,
    Run,
    Reasons,
    Reverse,
    RoundTrip,
    RoomLeft,
    BoundWithin,
}

impl Call {
    /// The call with this letter, if there is one.
    pub fn from_letter(letter: u8) -> Option<Call> {
        match letter {
            b'T' => Some(Call::TableVerdict),
            b'P' => Some(Call::PatchVerdict),
            b'M' => Some(Call::Map),
            b'B' => Some(Call::Bound),
            b'A' => Some(Call::Patch),
            b'R' => Some(Call::Run),
            b'W' => Some(Call::Reasons),
            b'V' => Some(Call::Reverse),
            b'U' => Some(Call::RoundTrip),
            b'G' => Some(Call::RoomLeft),
            b'H' => Some(Call::BoundWithin),
            _ => None,
        }
    }

    /// The letter of the call.
    pub fn letter(self) -> u8 {
        match self {
            Call::TableVerdict => b'T',
            Call::PatchVerdict => b'P',
            Call::Map => b'M',
            Call::Bound => b'B',
            Call::Patch => b'A',
            Call::Run => b'R',
            Call::Reasons => b'W',
            Call::Reverse => b'V',
            Call::RoundTrip => b'U',
            Call::RoomLeft => b'G',
            Call::BoundWithin => b'H',
        }
    }

    /// The lengths of a header, in the order in which what they count follows; a reverse may take more
    /// room than a table.
    fn lengths(self) -> [Length; 7] {
        let most_room = match self {
            Call::Reverse => MOST_IMAGE,
            _ => MOST_ROOM,
        };
        [
            (4, MOST_IMAGE),
            (8, MOST_IMAGE),
            (12, MOST_ROWS),
            (16, MOST_ROWS),
            (20, MOST_IDS),
            (24, most_room),
            (28, MOST_STEPS),
        ]
    }

    /// Whether the map and the room to be written stand in the stream; those of a round trip do not, as
    /// each of its calls is lent new ones, filled as a step's are.
    fn tells_what_is_written(self) -> bool {
        self != Call::RoundTrip
    }

    /// Whether a reserve and an id stand in the header, where other calls have their last two lengths.
    fn asks_for_a_task(self) -> bool {
        self == Call::RoomLeft
    }

    /// Whether a limit stands in the header, where other calls have the last but one of their lengths.
    fn has_limit(self) -> bool {
        self == Call::BoundWithin
    }

    /// Whether the case has to start from a valid table and its true map.
    fn starts_from_truth(self) -> bool {
        matches!(self, Call::Run | Call::RoundTrip)
    }
}

/// One call and the contents of everything that is lent to it, as they are before the call.
#[derive(Clone, PartialEq, Eq, Debug)]
pub struct Case {
    pub call: Call,
    /// The table, or the patch of a case that asks for a patch's verdict or its reverse.
    pub image: Vec<u8>,
    pub patch: Vec<u8>,
    /// The rows of the map that is read, or the questions of a case that asks for reasons.
    pub map_read: Vec<u64>,
    /// The rows of the map that is written, or the bits of the room for figures of a case that asks for room left.
    pub map_written: Vec<u64>,
    pub ids: Vec<u16>,
    pub room: Vec<u8>,
    pub steps: Vec<Step>,
    /// The reserve and the id of a case that asks for room left.
    pub asked: Asked,
    /// How many chains a case of the bound call with a limit may open; of others it is 0.
    pub limit: u32,
}

impl Case {
    /// A case that lends an image and nothing else.
    pub fn lending(call: Call, image: Vec<u8>) -> Case {
        Case {
            call,
            image,
            patch: Vec::new(),
            map_read: Vec::new(),
            map_written: Vec::new(),
            ids: Vec::new(),
            room: Vec::new(),
            steps: Vec::new(),
            asked: Asked::default(),
            limit: 0,
        }
    }

    /// Writes the case as it stands in a stream.
    pub fn write(&self, output: &mut impl Write) -> io::Result<()> {
        let lengths = [
            self.image.len(),
            self.patch.len(),
            self.map_read.len(),
            self.map_written.len(),
            self.ids.len(),
            self.room.len(),
            self.steps.len(),
        ];
        let mut header = [0; HEADER_BYTES];
        header[0] = self.call.letter();
        put_lengths(&mut header, &self.call.lengths(), lengths);
        if self.call.asks_for_a_task() {
            self.asked.put(&mut header);
        }
        if self.call.has_limit() {
            limit::put(self.limit, &mut header);
        }
        let (map_written, room) = match self.call.tells_what_is_written() {
            true => (&self.map_written[..], &self.room[..]),
            false => (&[][..], &[][..]),
        };
        output.write_all(&header)?;
        output.write_all(&self.image)?;
        output.write_all(&self.patch)?;
        for row in self.map_read.iter().chain(map_written) {
            output.write_all(&row.to_le_bytes())?;
        }
        for id in &self.ids {
            output.write_all(&id.to_le_bytes())?;
        }
        output.write_all(room)?;
        self.steps.iter().try_for_each(|step| step.write(output))
    }

    /// The next case of a stream, or none where the stream ends between two cases.
    pub fn read(input: &mut impl Read) -> io::Result<Option<Case>> {
        let Some(mut header) = read_header(input)? else {
            return Ok(None);
        };
        let call = Call::from_letter(header[0]).ok_or_else(|| broken("a letter without a call"))?;
        let is_told = call.tells_what_is_written();
        let asked = match call.asks_for_a_task() {
            true => Asked::take(&mut header),
            false => Asked::default(),
        };
        let limit = match call.has_limit() {
            true => limit::take(&mut header),
            false => 0,
        };
        let [image, patch, map_read, map_written, ids, room, steps] =
            lengths_in(&header, &call.lengths())?;
        let case = Case {
            call,
            image: read_bytes(input, image)?,
            patch: read_bytes(input, patch)?,
            map_read: read_rows(input, map_read)?,
            map_written: match is_told {
                true => read_rows(input, map_written)?,
                false => vec![LENT_ROW; map_written],
            },
            ids: read_ids(input, ids)?,
            room: match is_told {
                true => read_bytes(input, room)?,
                false => vec![LENT_BYTE; room],
            },
            steps: (0..steps)
                .map(|_| Step::read(input))
                .collect::<io::Result<_>>()?,
            asked,
            limit,
        };
        match case.starts_rightly() {
            true => Ok(Some(case)),
            false => Err(broken("a start from a refused table or from another map")),
        }
    }

    /// Whether the case starts from a valid table and its true map, where it has to.
    fn starts_rightly(&self) -> bool {
        let is_true = || Afresh::start(&self.image, &self.map_read).is_some();
        !self.call.starts_from_truth() || is_true()
    }
}

/// The next header, or none where the input ends before it.
fn read_header(input: &mut impl Read) -> io::Result<Option<[u8; HEADER_BYTES]>> {
    let mut bytes = Vec::new();
    input.take(HEADER_BYTES as u64).read_to_end(&mut bytes)?;
    match <[u8; HEADER_BYTES]>::try_from(bytes) {
        Ok(header) => Ok(Some(header)),
        Err(bytes) if bytes.is_empty() => Ok(None),
        Err(_) => Err(broken("a header cut short")),
    }
}
