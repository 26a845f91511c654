//! What lent maps and rooms hold before a call.

use crate::generate::random::Random;

/// Rows of random contents.
pub fn rows(random: &mut Random, count: usize) -> Vec<u64> {
    (0..count).map(|_| random.bits()).collect()
}

/// Entries of random contents.
pub fn entries(random: &mut Random, count: usize) -> Vec<u16> {
    (0..count).map(|_| random.bits() as u16).collect()
}

/// A number of rows that is enough, sometimes more.
pub fn enough_rows(random: &mut Random) -> usize {
    random.pick(&[64, 64, 64, 70, 80])
}

/// A number of rows or entries that is too few.
pub fn too_few_rows(random: &mut Random) -> usize {
    random.pick(&[0, 63, 63])
}

/// Rows or entries, mostly as many as are needed, and in some cases fewer or more.
pub fn rows_or_entries(random: &mut Random) -> usize {
    match random.rank(32) {
        0 => 63,
        1 => 0,
        2 | 3 => 65,
        4 | 5 => 70,
        _ => 64,
    }
}
