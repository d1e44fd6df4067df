//! Wrong answers to why a cell shows what it shows: faults 42 to 48 and 50.
use super::call::Call;
use super::model::Model;
use crate::chain::{PAIRS, PLACES, ROWS};
use crate::rainbow::{Seen, CELL, DARK, FILL, PAST};

/// The model's answer, with a fault.
pub fn call(fault: usize, model: &mut Model, row: usize, column: usize) -> Seen {
    let mut seen = model.right(&Call::Explain { row, column });
    let said = &mut seen.explained;
    match (fault, said.answer) {
        (42, PAST) => {
            if let Some(end) = model.walk.end(row) {
                (said.answer, said.place) = (FILL, end as u16);
            }
        }
        (43, _) if said.linked != 0 => said.link = (said.link + 1) % PLACES as u16,
        // A row that goes past the last place comes to a place under its column.
        (44, CELL) if usize::from(said.place) < column => said.place += PLACES as u16,
        (45, CELL) if row > 0 => said.kind = model.walk.kind(row - 1),
        (46, DARK) => said.tore = row as u8,
        (47, DARK) if said.tore > 0 => said.tore -= 1,
        (48, CELL | FILL | PAST) if row == 0 => said.linked = 1,
        (50, _) if seen.refusal == 1 && (row >= ROWS || column >= PAIRS) => seen.refusal = 5,
        _ => {}
    }
    seen
}
