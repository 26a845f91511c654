//! The reverse call: a patch is read, and the patch that takes it back is written.

use crate::blocks::{image_of, Form};
use crate::records::Record;
use crate::verdict::{records_of_patch, Refusal, TOO_SHORT};

/// Writes the reverse of the patch and says how many bytes it has; a refusal writes nothing.
pub fn reverse_call(patch: &[u8], room: &mut [u8]) -> Result<usize, Refusal> {
    let records = records_of_patch(patch)?;
    let written = room.get_mut(..patch.len()).ok_or(TOO_SHORT)?;
    written.copy_from_slice(&image_of(Form::Patch, &reverse_of(&records)));
    Ok(patch.len())
}

/// The records of a patch, each turned, with all taken out before all put in.
pub fn reverse_of(patch: &[Record]) -> Vec<Record> {
    let mut reverse: Vec<Record> = patch.iter().map(Record::turned).collect();
    reverse.sort_by_key(Record::order);
    reverse
}
