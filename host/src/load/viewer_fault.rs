//! Viewers that are served wrongly: faults 51 to 63.
use super::call::Call;
use super::model::Model;
use crate::chain::ROWS;
use crate::rainbow::{Seen, Waiting};
use crate::viewers::{Viewers, VIEWERS};

/// The bits of all rows.
const ALL_ROWS: u32 = (1 << ROWS) - 1;

/// The model's answer, with a fault: 51 to 61.
pub fn call(fault: usize, model: &mut Model, call: &Call) -> Seen {
    let before = model.viewers.numbers();
    let call = match (fault, *call) {
        (57, Call::Ask { viewer: VIEWERS }) => Call::Ask { viewer: 0 },
        (_, call) => call,
    };
    let mut seen = model.right(&call);
    let mut after = seen.viewers;
    let accepted = seen.refusal == 0;
    let store = matches!(call, Call::StoreForViewers { .. });
    match (fault, call) {
        (51, Call::Ask { .. }) if accepted => after = [0; VIEWERS],
        (52, Call::Ask { .. }) => after = before,
        (53, _) if store => after[VIEWERS - 1] = before[VIEWERS - 1],
        (54, Call::DrawForViewers) => after = before,
        (55, Call::DrawForViewers) if accepted => after = [u32::MAX; VIEWERS],
        (56, _) if store && accepted => after = [seen.value as u32; VIEWERS],
        (58, Call::Ask { .. }) if !accepted => after = [0; VIEWERS],
        (59, Call::DrawForViewers) if !accepted => after = [ALL_ROWS; VIEWERS],
        (60, _) if store && !accepted => after = [ALL_ROWS; VIEWERS],
        (61, Call::Ask { viewer }) if accepted => {
            seen.value = before[(viewer + 1) % VIEWERS].into()
        }
        _ => return seen,
    }
    model.viewers = Viewers::given(after);
    seen.viewers = after;
    seen
}

/// What all sides make of the viewers that came back: 62 and 63.
pub fn on_both_sides(fault: usize, call: &Call, seen: &Seen, viewers: &mut Waiting) {
    let of_last_row = seen.value >> (ROWS - 1) & 1 == 1;
    match (fault, *call) {
        (62, Call::Ask { viewer }) if seen.refusal == 0 => {
            viewers[viewer + 1..].fill(ALL_ROWS);
        }
        (63, Call::StoreForViewers { .. }) if of_last_row => {
            viewers[VIEWERS - 1] &= ALL_ROWS >> 1;
        }
        _ => {}
    }
}
