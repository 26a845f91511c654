//! What the commands `bounds`, `reasons`, `room` and `opened` print.

use crate::bound_call::{bound_call, Bounds, ID_ENTRIES};
use crate::map_call::map_call;
use crate::preempt::MAP_ROWS;
use crate::reason_call::reason_call;
use crate::room_call::{room_call, FIGURE_ENTRIES};
use crate::table::Table;
use crate::verdict::{records_of_table, Refusal};
use crate::within_call::within_call;

/// The lines for an image: its bounds with its own map, or its refusal.
pub fn bounds_report(image: &[u8]) -> String {
    lines_or_refusal(bounds_lines(image))
}

/// The lines for an image: the reasons of the neighbours in its chain, or its refusal.
pub fn reasons_report(image: &[u8]) -> String {
    lines_or_refusal(reason_lines(image))
}

/// The lines for an image: what each task has left of the reserve with the table's own map, or its refusal.
pub fn room_report(image: &[u8], reserve: u32) -> String {
    lines_or_refusal(room_lines(image, reserve))
}

/// The line for an image: how many chains the rule opens with the table's own map, or its refusal.
pub fn opened_report(image: &[u8], limit: u32) -> String {
    lines_or_refusal(opened_line(image, limit))
}

fn lines_or_refusal(given: Result<String, Refusal>) -> String {
    let line = |Refusal { number, place }| format!("refused {number} at {place}\n");
    given.unwrap_or_else(line)
}

/// The bounds of an image with its own map, and the chain's ids, or its refusal.
pub fn bounds_with_own_map(image: &[u8]) -> Result<(Bounds, Vec<u16>), Refusal> {
    let mut map = [0; MAP_ROWS];
    map_call(image, &mut map)?;
    let mut ids = vec![0; ID_ENTRIES];
    let bounds = bound_call(image, &map, &mut ids)?;
    ids.truncate(bounds.length);
    Ok((bounds, ids))
}

fn bounds_lines(image: &[u8]) -> Result<String, Refusal> {
    let (bounds, chain) = bounds_with_own_map(image)?;
    let ids: String = chain.iter().map(|id| format!(" {id}")).collect();
    Ok(format!(
        "tasks {}\nchain {}:{ids}\npath {}\ntransactions {}\nlevels {}\n",
        bounds.tasks, bounds.chain, bounds.path, bounds.transactions, bounds.levels
    ))
}

/// One line for each two neighbours in the chain: both ids and the word of their reason.
fn reason_lines(image: &[u8]) -> Result<String, Refusal> {
    let (_, chain) = bounds_with_own_map(image)?;
    let line = |(low, high): (&u16, &u16)| {
        let reason = reason_call(image, u32::from(*low), u32::from(*high))?;
        Ok(format!("{low} {high} {}\n", reason.word()))
    };
    chain.iter().zip(chain.iter().skip(1)).map(line).collect()
}

/// One line for each task, by rising id: the id, and the reserve less the weight of the heaviest chain that contains it.
fn room_lines(image: &[u8], reserve: u32) -> Result<String, Refusal> {
    let mut map = [0; MAP_ROWS];
    map_call(image, &mut map)?;
    let mut figures = [0; FIGURE_ENTRIES];
    room_call(image, &map, reserve, &mut figures)?;
    let table = Table::read(&records_of_table(image)?);
    let lines = table.tasks.iter().zip(figures);
    Ok(lines
        .map(|(task, figure)| format!("{} {figure}\n", task.id))
        .collect())
}

fn opened_line(image: &[u8], limit: u32) -> Result<String, Refusal> {
    let mut map = [0; MAP_ROWS];
    map_call(image, &mut map)?;
    let given = within_call(image, &map, limit, &mut [0; ID_ENTRIES]);
    let within = given.map_err(|refused| refused.refusal)?;
    Ok(format!("opened {}\n", within.opened))
}
