//! Indexes that are worked out or kept wrongly: faults 64 to 90.
use super::aim::{entry_at, SCREEN};
use super::call::{Buffer, Call};
use super::fault::first_row_only;
use super::library::Library;
use super::model::Model;
use crate::chain::{read_by_rows, PICTURE, PLACES, ROWS};
use crate::index::{self, INDEX, NO_ROW};
use crate::rainbow::Seen;
use crate::viewers::Viewers;

/// The first of these faults, and the one of the tester itself.
pub const FIRST: usize = 64;
pub const UNSEEN_MOVE: usize = 90;

const LAST_ROW: u8 = ROWS as u8 - 1;

/// The model's answer, with a fault.
pub fn call(fault: usize, model: &mut Model, call: &Call) -> Seen {
    match (fault, call.stores_with_index()) {
        (79, _) if model.index.len() > INDEX => longer(model, call),
        (80, Some(_)) => first_row_only(model, call),
        (64..=72, Some((address, _))) => naming_another(fault, model, call, address),
        (_, Some((address, _))) => stored(fault, model, call, address),
        (_, None) => afresh(fault, model, call),
    }
}

/// An index that is longer than it may be, of which the first bytes are taken.
fn longer(model: &mut Model, call: &Call) -> Seen {
    let rest = model.index.split_off(INDEX);
    let seen = model.right(call);
    model.index.extend(rest);
    seen
}

/// The index of the memories as they are, if they have the right lengths.
fn fresh(model: &Model) -> Option<Vec<u8>> {
    let (view, columns) = (&model.view, model.machine.columns.into());
    index::index(&view.screen, &view.attribute, columns).ok()
}

/// The entry of a byte, if it has one and the index is as long as it has to be.
fn entry_of(model: &Model, address: u32) -> Option<usize> {
    entry_at(address).filter(|_| model.index.len() == INDEX)
}

/// Another row is taken for f, or another entry, or entries stay by another rule: 64 to 72.
fn naming_another(fault: usize, model: &mut Model, call: &Call, address: u32) -> Seen {
    let place = address as usize % PLACES;
    let Some(entry) = entry_of(model, address) else {
        return match fault {
            71 if model.index.len() == INDEX => with_row(model, call, model.index[place]),
            _ => model.right(call),
        };
    };
    let byte = model.index[entry];
    match (fault, byte) {
        (64, NO_ROW) => naming(model, call, entry, LAST_ROW),
        (65, NO_ROW) => naming(model, call, entry, 0),
        (66, LAST_ROW) => naming(model, call, entry, NO_ROW),
        (67, 25) => naming(model, call, entry, LAST_ROW),
        (68, 25..) => renewing(model, call, |_, entry| entry > LAST_ROW),
        (69, 0..=LAST_ROW) => renewing(model, call, |place, _| place >= byte.into()),
        (70, _) => naming(model, call, entry, model.index[place]),
        (72, _) => {
            let by_walk = fresh(model).map_or(byte, |fresh| fresh[entry]);
            naming(model, call, entry, by_walk)
        }
        _ => model.right(call),
    }
}

/// The call as it is where the index names another row for the byte.
fn naming(model: &mut Model, call: &Call, entry: usize, row: u8) -> Seen {
    let kept = std::mem::replace(&mut model.index[entry], row);
    let seen = model.right(call);
    if seen.refusal != 0 || row > LAST_ROW {
        model.index[entry] = kept;
    }
    seen
}

/// The call, and then a mend from a row: a store of the byte that is there does no more.
fn with_row(model: &mut Model, call: &Call, row: u8) -> Seen {
    let seen = model.right(call);
    if seen.refusal != 0 {
        return seen;
    }
    let byte = model.view.screen[0];
    let again = Call::StoreWithIndex {
        address: SCREEN,
        byte,
    };
    let value = naming(model, &again, 0, row).value;
    Seen { value, ..seen }
}

/// The call, but that the entries which become those of the memory after the store are chosen otherwise, by where they
/// stand and what they were.
fn renewing(model: &mut Model, call: &Call, renewed: impl Fn(usize, u8) -> bool) -> Seen {
    let before = model.index.clone();
    let seen = model.right(call);
    if let (0, Some(fresh)) = (seen.refusal, fresh(model)) {
        let entries = before.iter().zip(fresh).enumerate();
        let entries = entries.map(|(at, (old, new))| if renewed(at, *old) { new } else { *old });
        model.index = entries.collect();
    }
    seen
}

/// What a store leaves of the index, or does for the viewers: 73 to 78, and 81.
fn stored(fault: usize, model: &mut Model, call: &Call, address: u32) -> Seen {
    let byte = entry_of(model, address).map(|entry| model.index[entry]);
    let first = byte.filter(|byte| *byte <= LAST_ROW);
    let (old, waiting) = (fresh(model), model.viewers.numbers());
    match (fault, first) {
        (73, _) => return renewing(model, call, |_, _| false),
        (74, Some(first)) => return renewing(model, call, |_, entry| entry == first),
        (75, Some(_)) => return renewing(model, call, |_, _| true),
        _ => {}
    }
    let before = model.index.clone();
    let mut seen = model.right(call);
    let accepted = seen.refusal == 0;
    match (fault, first) {
        (76, Some(first)) if accepted => keep_under(first, model, before, old),
        (77, Some(first)) if accepted => {
            let last = last_readers(model);
            keep_under(first, model, before, Some(last));
        }
        (78, _) if !accepted && model.index.len() == INDEX => {
            model.index = fresh(model).unwrap_or(before);
        }
        (81, _) if call.has_viewers() => {
            model.viewers = Viewers::given(waiting);
            seen.viewers = waiting;
        }
        _ => {}
    }
    seen
}

/// The entries under a row as they were, and the others those of another index.
fn keep_under(first: u8, model: &mut Model, before: Vec<u8>, other: Option<Vec<u8>>) {
    let other = other.unwrap_or_else(|| before.clone());
    let entries = before.into_iter().zip(other);
    model.index = entries
        .map(|(old, new)| if old < first { old } else { new })
        .collect();
}

fn last_readers(model: &Model) -> Vec<u8> {
    let (view, columns) = (&model.view, model.machine.columns.into());
    let readers = index::readers(&view.screen, &view.attribute, columns).unwrap_or_default();
    let last = readers.into_iter().map(|rows| rows.into_iter().max());
    last.map(|row| row.unwrap_or(NO_ROW)).collect()
}

/// An index worked out wrongly: 82 to 87.
fn afresh(fault: usize, model: &mut Model, call: &Call) -> Seen {
    let seen = match fault {
        87 if model.machine.reset => return Seen::refusal(8),
        85 => at_80_columns(model, call),
        _ => model.right(call),
    };
    if seen.refusal != 0 {
        return seen;
    }
    let last = (fault == 82).then(|| last_readers(model));
    let torn = (fault == 86).then(|| torn_row(model)).flatten();
    let index = model.bytes_mut(match call {
        Call::IndexReaders => Buffer::Index,
        _ => Buffer::SpareIndex,
    });
    match (fault, last, torn) {
        (_, Some(last), _) => index.copy_from_slice(&last),
        (_, _, Some((row, place))) => {
            let entry = &mut index[PLACES + place];
            *entry = row.min(*entry);
        }
        (83, ..) => {
            let of_last_row = index.iter_mut().filter(|entry| **entry == LAST_ROW);
            of_last_row.for_each(|entry| *entry = NO_ROW);
        }
        (84, ..) => index.rotate_left(PLACES),
        _ => {}
    }
    seen
}

fn at_80_columns(model: &mut Model, call: &Call) -> Seen {
    let columns = std::mem::replace(&mut model.machine.columns, 80);
    let seen = model.right(call);
    model.machine.columns = columns;
    seen
}

/// The row that is torn, and the last place that it reads: it has one more of screen memory than of attribute memory.
fn torn_row(model: &Model) -> Option<(u8, usize)> {
    let (view, columns) = (&model.view, model.machine.columns.into());
    let rows = read_by_rows(&view.screen, &view.attribute, columns).ok()?;
    let mut rows = (0..).zip(rows);
    let torn = rows.find(|(_, row)| row.screen.len() == row.attribute.len() + 1);
    torn.and_then(|(row, places)| Some((row, *places.screen.last()?)))
}

/// What both sides make of a store with an index: 88, and 89, which is of shared memory.
pub fn on_both_sides(
    fault: usize,
    address: u32,
    answers: &mut [&mut Seen; 2],
    library: &mut Library,
    model: &mut Model,
) {
    let (buffer, last) = match fault {
        88 => (Buffer::Index, INDEX - 1),
        89 if address < SCREEN => (Buffer::Picture, PICTURE - 1),
        _ => return,
    };
    library.buffers[buffer as usize].content_mut()[last] ^= 1;
    model.bytes_mut(buffer)[last] ^= 1;
    if fault == 89 {
        answers
            .iter_mut()
            .for_each(|seen| seen.value |= 1 << LAST_ROW);
    }
}
