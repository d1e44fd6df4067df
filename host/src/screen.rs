//! Document 02, ticket 5: the lines of the whole screen.
use crate::chain::{KIND_AT, PICTURE, RECORD, ROWS};
use crate::dots::SCANS;
use crate::machine::Machine;
use crate::Answer;

/// "A screen is 240 lines; the call fills a lent list of 480 bytes, row then scan for each line from the top."
pub const LINES: usize = 240;
pub const LIST: usize = 480;

/// "rows 0 to 23 show in full": the rows at rest.
pub const ROWS_AT_REST: usize = 24;

/// The scrolling bit of a kind.
const SCROLLING: u8 = 0b100;

/// The row and the scan of each line that shows, from the top, with rows of these kinds and a latch of 0 to 9.
pub fn lines(kinds: &[u8; ROWS], latch: usize) -> Vec<(usize, usize)> {
    let scrolls = |row: &usize| kinds[*row] & SCROLLING != 0;
    let run: Vec<usize> = (0..ROWS)
        .skip_while(|row| !scrolls(row))
        .take_while(scrolls)
        .collect();
    let in_full = |row: usize| (1..=SCANS).map(move |scan| (row, scan));
    let (Some(first), Some(last)) = (run.first(), run.last()) else {
        return (0..ROWS_AT_REST).flat_map(in_full).collect();
    };
    if latch == 0 {
        return (0..ROWS_AT_REST).flat_map(in_full).collect();
    }
    let mut shown = Vec::new();
    for row in 0..ROWS {
        let mut scans: Vec<(usize, usize)> = in_full(row).collect();
        if row == *last {
            scans.truncate(scans.len() - (SCANS - latch));
        }
        if row == *first {
            scans.drain(..latch);
        }
        shown.append(&mut scans);
    }
    shown
}

/// Fills the list from a picture, whose kinds may be any bytes. A refused call changes no byte.
pub fn list_lines(machine: &Machine, picture: &[u8], list: &mut [u8]) -> Answer<()> {
    if picture.len() != PICTURE || list.len() != LIST {
        return Err(1);
    }
    let latch = usize::from(machine.scroll_latch());
    if latch > 9 {
        return Err(9);
    }
    let kinds = std::array::from_fn(|row| picture[row * RECORD + KIND_AT] % 8);
    for (entry, (row, scan)) in list.chunks_exact_mut(2).zip(lines(&kinds, latch)) {
        entry.copy_from_slice(&[row as u8, scan as u8]);
    }
    Ok(())
}

#[cfg(test)]
mod tests {
    use super::*;

    /// Kinds with the scrolling bit in some rows.
    fn kinds(scrolling: impl IntoIterator<Item = usize>) -> [u8; ROWS] {
        let mut kinds = [3; ROWS];
        scrolling
            .into_iter()
            .for_each(|row| kinds[row] |= SCROLLING);
        kinds
    }

    /// "It is shown to be 240 lines for every L from 0 to 9."
    #[test]
    fn every_run_and_every_latch_has_240_lines() {
        for latch in 0..10 {
            assert_eq!(lines(&kinds([]), latch).len(), LINES);
            for first in 0..ROWS {
                for end in first + 1..=ROWS {
                    let shown = lines(&kinds(first..end), latch);
                    assert_eq!(shown.len(), LINES, "rows {first} to {end} at {latch}");
                    assert!(shown.windows(2).all(|pair| pair[0] < pair[1]));
                }
            }
        }
    }

    /// "the run's first row loses its top L scans and its last row its bottom 10 less L"
    #[test]
    fn a_run_of_three_at_latch_4() {
        let shown = lines(&kinds(7..10), 4);
        let of = |row: usize| -> Vec<usize> {
            shown
                .iter()
                .filter(|line| line.0 == row)
                .map(|line| line.1)
                .collect()
        };
        assert_eq!(of(6), (1..=10).collect::<Vec<_>>());
        assert_eq!(of(7), (5..=10).collect::<Vec<_>>());
        assert_eq!(of(8), (1..=10).collect::<Vec<_>>());
        assert_eq!(of(9), (1..=4).collect::<Vec<_>>());
        assert_eq!(of(24), (1..=10).collect::<Vec<_>>());
    }

    /// "a run of one row shows none", and a second run shows in full.
    #[test]
    fn a_run_of_one_row_and_a_second_run() {
        let shown = lines(&kinds([3, 5, 6]), 9);
        assert!(shown.iter().all(|line| line.0 != 3));
        assert_eq!(
            shown
                .iter()
                .filter(|line| line.0 == 5 || line.0 == 6)
                .count(),
            20
        );
    }

    /// "With no such run, or with L 0, rows 0 to 23 show in full."
    #[test]
    fn at_rest() {
        let at_rest: Vec<(usize, usize)> =
            (0..240).map(|line| (line / 10, line % 10 + 1)).collect();
        assert_eq!(lines(&kinds([]), 7), at_rest);
        assert_eq!(lines(&kinds(4..20), 0), at_rest);
    }
}
