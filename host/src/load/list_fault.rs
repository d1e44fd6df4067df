//! Wrong lists of the whole screen: faults 33 to 40.
use super::call::Call;
use super::list_sweep::SCROLLING;
use super::model::Model;
use crate::chain::{KIND_AT, PICTURE, RECORD, ROWS};
use crate::dots::SCANS;
use crate::rainbow::Seen;
use crate::screen::LIST;
use std::ops::Range;

/// The model's answer to a list of the lines, with a fault.
pub fn call(fault: usize, model: &mut Model) -> Seen {
    if model.picture.len() != PICTURE || model.list.len() != LIST {
        return right(model);
    }
    let runs = runs(&model.picture);
    let latch = model.machine.scroll_latch();
    match (fault, &runs[..], latch) {
        (33, [.., last], _) => only(model, last),
        (34, [first, ..], 1..=9) => bottom_lost(model, first, latch),
        (35, [_, ..], 1..=9) => with_latch(model, SCANS as u8 - latch),
        (36, [first, ..], 1..=9) if first.len() == 1 => with_latch(model, 0),
        (37, [first, ..], 0) => all_rows(model, first),
        (38, _, _) if model.machine.latch > 9 => Seen::refusal(9),
        (39, [_, ..], 1..=9) => without_last_row(model),
        (40, [], 10..) => with_latch(model, 0),
        _ => right(model),
    }
}

fn right(model: &mut Model) -> Seen {
    model.right(&Call::ListLines)
}

/// The runs of rows that scroll.
fn runs(picture: &[u8]) -> Vec<Range<usize>> {
    let scrolls = |row: usize| row < ROWS && picture[row * RECORD + KIND_AT] & SCROLLING != 0;
    let begins = |row: &usize| scrolls(*row) && (*row == 0 || !scrolls(*row - 1));
    let to_end = |first: usize| first..(first..).find(|row| !scrolls(*row)).unwrap_or(ROWS);
    (0..ROWS).filter(begins).map(to_end).collect()
}

/// The list as it is while no other run scrolls.
fn only(model: &mut Model, run: &Range<usize>) -> Seen {
    let kept = model.picture.clone();
    for row in (0..ROWS).filter(|row| !run.contains(row)) {
        model.picture[row * RECORD + KIND_AT] &= !SCROLLING;
    }
    let seen = right(model);
    model.picture = kept;
    seen
}

/// The list as it is with another latch.
fn with_latch(model: &mut Model, latch: u8) -> Seen {
    let kept = model.machine.latch;
    model.machine.latch = latch;
    let seen = right(model);
    model.machine.latch = kept;
    seen
}

fn bottom_lost(model: &mut Model, run: &Range<usize>, latch: u8) -> Seen {
    let seen = right(model);
    let lines = model.list.chunks_mut(2);
    lines
        .filter(|line| usize::from(line[0]) == run.start)
        .for_each(|line| line[1] -= latch);
    seen
}

/// The run's last row loses all ten scans, at latch 0.
fn all_rows(model: &mut Model, run: &Range<usize>) -> Seen {
    let rows = (0..ROWS).filter(|row| row + 1 != run.end);
    let lines = rows.flat_map(|row| (1..=SCANS).map(move |scan| [row as u8, scan as u8]));
    model.list = lines.flatten().collect();
    Seen::refusal(0)
}

/// The lines of the last row stay as they were.
fn without_last_row(model: &mut Model) -> Seen {
    let kept = model.list.clone();
    let seen = right(model);
    let lines = model.list.chunks_mut(2).zip(kept.chunks(2));
    lines
        .filter(|(line, _)| usize::from(line[0]) == ROWS - 1)
        .for_each(|(line, kept)| line.copy_from_slice(kept));
    seen
}
