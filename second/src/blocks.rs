//! The blocks of an image: their frame, their check, and where their records stand.

use crate::bytes::{put_u16, u16_at};
use crate::records::{patch_records, Record, RECORD_BYTES};

/// Bytes of one block.
pub const BLOCK_BYTES: usize = 512;
/// Places for records in one block.
pub const RECORDS_PER_BLOCK: usize = 15;
/// Where the block's own number stands.
pub const BLOCK_NUMBER_AT: usize = 2;
/// Where the number of blocks of the image stands.
pub const BLOCK_COUNT_AT: usize = 3;
/// Where the number of records of the block stands.
pub const RECORD_COUNT_AT: usize = 4;
/// Where the three zero bytes of the header start.
pub const HEADER_FILL_AT: usize = 5;
/// Where the first place for a record starts.
pub const FIRST_PLACE_AT: usize = 8;
/// Where the zero fill after the last place starts.
pub const FILL_AT: usize = 488;
/// Where the check stands.
pub const CHECK_AT: usize = 510;
/// The check is a sum modulo this number.
pub const CHECK_MODULUS: u32 = 65_521;

/// The two sorts of image.
#[derive(Clone, Copy, PartialEq, Eq, Debug)]
pub enum Form {
    Table,
    Patch,
}

impl Form {
    /// The two letters that every block of this form starts with.
    pub fn mark(self) -> [u8; 2] {
        match self {
            Form::Table => *b"TB",
            Form::Patch => *b"PA",
        }
    }

    /// The largest number of blocks an image of this form may have.
    pub fn most_blocks(self) -> usize {
        match self {
            Form::Table => 23,
            Form::Patch => 45,
        }
    }

    /// The most bytes that an image of this form may have.
    pub fn most_bytes(self) -> usize {
        self.most_blocks() * BLOCK_BYTES
    }

    /// The form that this one is not.
    pub fn other(self) -> Form {
        match self {
            Form::Table => Form::Patch,
            Form::Patch => Form::Table,
        }
    }
}

/// The check that belongs to the block's first 510 bytes.
pub fn right_check(block: &[u8]) -> u16 {
    let weighted = |(byte, factor): (&u8, u32)| u32::from(*byte) * factor;
    let sum: u32 = block[..CHECK_AT].iter().zip(1..).map(weighted).sum();
    (sum % CHECK_MODULUS) as u16
}

/// Whether the check that stands in the block is the right one.
pub fn check_is_right(block: &[u8]) -> bool {
    u16_at(block, CHECK_AT) == right_check(block)
}

/// Writes the right check into every whole block.
pub fn mend_checks(image: &mut [u8]) {
    for block in image.chunks_exact_mut(BLOCK_BYTES) {
        let check = right_check(block);
        put_u16(block, CHECK_AT, check);
    }
}

/// Whether header, record count and zero fill are right for block `rank` of `blocks`.
pub fn frame_is_right(block: &[u8], form: Form, rank: usize, blocks: usize) -> bool {
    let records = usize::from(block[RECORD_COUNT_AT]);
    block[..BLOCK_NUMBER_AT] == form.mark()
        && usize::from(block[BLOCK_NUMBER_AT]) == rank
        && usize::from(block[BLOCK_COUNT_AT]) == blocks
        && count_is_right(records, rank, blocks)
        && all_zero(&block[HEADER_FILL_AT..FIRST_PLACE_AT])
        && all_zero(&block[FIRST_PLACE_AT + RECORD_BYTES * records..CHECK_AT])
}

/// Whether block `rank` of `blocks` may hold this number of records.
fn count_is_right(records: usize, rank: usize, blocks: usize) -> bool {
    let fewest = match (rank + 1 == blocks, blocks) {
        (false, _) => RECORDS_PER_BLOCK,
        (true, 1) => 0,
        (true, _) => 1,
    };
    (fewest..=RECORDS_PER_BLOCK).contains(&records)
}

/// Whether every byte is zero.
fn all_zero(bytes: &[u8]) -> bool {
    bytes.iter().all(|byte| *byte == 0)
}

/// Where in an image the record of this rank starts.
pub fn start_of_record(rank: usize) -> usize {
    BLOCK_BYTES * (rank / RECORDS_PER_BLOCK)
        + FIRST_PLACE_AT
        + RECORD_BYTES * (rank % RECORDS_PER_BLOCK)
}

/// All records of an image whose frames are right, in the image's order.
pub fn records_in(image: &[u8]) -> Vec<Record> {
    let count = image
        .chunks_exact(BLOCK_BYTES)
        .map(|block| usize::from(block[RECORD_COUNT_AT]))
        .sum();
    (0..count)
        .map(|rank| Record::starting_at(image, start_of_record(rank)))
        .collect()
}

/// The number of blocks that this many records take.
pub fn blocks_for(records: usize) -> usize {
    records.div_ceil(RECORDS_PER_BLOCK).max(1)
}

/// The image that holds these records in this order, with right frames and checks.
pub fn image_of(form: Form, records: &[Record]) -> Vec<u8> {
    let blocks = blocks_for(records.len());
    let mut image = vec![0; blocks * BLOCK_BYTES];
    for (rank, block) in image.chunks_exact_mut(BLOCK_BYTES).enumerate() {
        let held = (records.len() - rank * RECORDS_PER_BLOCK).min(RECORDS_PER_BLOCK);
        block[..BLOCK_NUMBER_AT].copy_from_slice(&form.mark());
        block[BLOCK_NUMBER_AT] = rank as u8;
        block[BLOCK_COUNT_AT] = blocks as u8;
        block[RECORD_COUNT_AT] = held as u8;
    }
    for (rank, record) in records.iter().enumerate() {
        let start = start_of_record(rank);
        image[start..start + RECORD_BYTES].copy_from_slice(&record.0);
    }
    mend_checks(&mut image);
    image
}

/// The image of the patch that takes out and puts in these records.
pub fn patch_image(taken_out: &[Record], put_in: &[Record]) -> Vec<u8> {
    image_of(Form::Patch, &patch_records(taken_out, put_in))
}
