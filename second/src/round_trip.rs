//! A round trip: a patch, its reverse, and the patch once more, each put to what stands.

use crate::reverse_call::reverse_call;
use crate::stream::parts::MOST_IMAGE;
use crate::stream::step::{Step, LENT_BYTE};
use crate::stream::Case;
use crate::verdict::Refusal;

/// The steps of a round trip, and the reverse call that makes the second one's patch.
pub struct RoundTrip {
    /// The bytes that the reverse call writes, or its refusal.
    pub reverse: Result<Vec<u8>, Refusal>,
    /// The way there, the way back, and the way there again.
    pub steps: [Step; 3],
}

impl RoundTrip {
    /// The round trip of the case; the way back has a patch of no bytes where the reverse is refused.
    pub fn of(case: &Case) -> RoundTrip {
        let mut room = vec![LENT_BYTE; MOST_IMAGE];
        let given = reverse_call(&case.patch, &mut room);
        let reverse = given.map(|length| room[..length].to_vec());
        let back = reverse.clone().unwrap_or_default();
        let step = |patch: Vec<u8>| Step {
            patch,
            map_rows: case.map_written.len(),
            room_bytes: case.room.len(),
        };
        RoundTrip {
            reverse,
            steps: [case.patch.clone(), back, case.patch.clone()].map(step),
        }
    }
}
