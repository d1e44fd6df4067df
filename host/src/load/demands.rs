//! What the documents demand of the library alone, whatever the model says.
use super::call::{Buffer, Call};
use super::library::Library;
use crate::chain::{PICTURE, RECORD, ROWS};
use crate::dots::SCANS;
use crate::rainbow::Seen;
use crate::screen::LINES;

/// The picture before the call, and whether it was kept.
pub struct Before<'a> {
    pub picture: &'a [u8],
    pub kept: bool,
}

/// The first line of a list that is no scan of a row, or does not come after the line before it. "It is shown to be 240
/// lines for every L from 0 to 9."
fn misplaced(list: &[u8]) -> Option<usize> {
    let line = |at: usize| (usize::from(list[2 * at]), usize::from(list[2 * at + 1]));
    (0..LINES).find(|at| {
        let (row, scan) = line(*at);
        let shown = row < ROWS && (1..=SCANS).contains(&scan);
        !shown || *at > 0 && line(*at - 1) >= (row, scan)
    })
}

/// Looks at what a call answered and left.
pub fn demands(library: &Library, before: Before, call: &Call, seen: &Seen) -> Result<(), String> {
    match call {
        _ if call.mends() => {
            marks_are_of_changes(before.picture, library.content(Buffer::Picture), seen.value)
        }
        Call::DrawAfresh if seen.refusal == 0 && before.kept => {
            let kept = library.content(Buffer::Picture);
            let fresh = library.content(Buffer::Spare);
            match (0..PICTURE).find(|place| kept[*place] != fresh[*place]) {
                Some(place) => Err(format!(
                    "the kept picture differs from a fresh one in row {:X}, byte {:X}",
                    place / RECORD,
                    place % RECORD
                )),
                None => Ok(()),
            }
        }
        Call::ListLines if seen.refusal == 0 => match misplaced(library.content(Buffer::List)) {
            Some(line) => Err(format!(
                "line {line:X} of the list is no scan of a row, or not below the one before it"
            )),
            None => Ok(()),
        },
        _ => Ok(()),
    }
}

/// "a number whose bit r is set exactly when record r changed"
fn marks_are_of_changes(before: &[u8], after: &[u8], marks: u64) -> Result<(), String> {
    let records = before.chunks(RECORD).zip(after.chunks(RECORD)).enumerate();
    let changed: u64 = records
        .map(|(row, (before, after))| u64::from(before != after) << row)
        .sum();
    match marks == changed {
        true => Ok(()),
        false => Err(format!(
            "the marks are {marks:X}, but the records that changed are {changed:X}"
        )),
    }
}
