//! The whole screen swept: no row that scrolls, every run of rows that do, every two runs, each with every latch.
use super::call::{Call, Step};
use super::world;
use crate::chain::{KIND_AT, RECORD, ROWS};
use crate::hard::Chance;
use crate::machine::Machine;
use std::ops::Range;

/// The scrolling bit of a kind.
pub const SCROLLING: u8 = 0b100;

/// The calls in pieces, each for a world of its own. Only one in `every` of the patterns of rows is tried.
pub fn pieces(every: usize) -> Vec<Vec<Step>> {
    let mut turn = 0;
    let mut chosen = move |_: &Runs| {
        turn += 1;
        turn % every == 0
    };
    let chance = &mut Chance(0x5C20_11ED_0240_0480);
    let steps = |piece: Piece| piece.0.into_iter().map(Step::from).collect();
    let mut pieces = Vec::new();
    for runs in one_run() {
        let mut piece = Piece::default();
        for runs in runs.into_iter().filter(&mut chosen) {
            piece.try_latches(chance, &runs, 0..=255);
        }
        pieces.push(steps(piece));
    }
    for runs in two_runs() {
        let mut piece = Piece::default();
        for runs in runs.into_iter().filter(&mut chosen) {
            let above: Vec<u8> = (0..16)
                .map(|_| chance.byte() & chance.of(&[0x00, 0xF0]))
                .collect();
            piece.try_latches(
                chance,
                &runs,
                (0..16).zip(above).map(|(latch, above)| latch | above),
            );
        }
        pieces.push(steps(piece));
    }
    pieces
}

/// The runs of rows that scroll, with a row at least between two.
type Runs = Vec<Range<usize>>;

/// No run, and for each first row every run from it on.
fn one_run() -> Vec<Vec<Runs>> {
    let from = |first| (first + 1..=ROWS).map(move |end| vec![first..end]);
    let each = (0..ROWS).map(|first| from(first).collect());
    [vec![Vec::new()]].into_iter().chain(each).collect()
}

/// For each run every second run below it.
fn two_runs() -> Vec<Vec<Runs>> {
    let runs = one_run().concat();
    let first = runs.iter().flatten();
    let below = |run: &Range<usize>| {
        let second = runs
            .iter()
            .flatten()
            .filter(|second| second.start > run.end);
        second
            .map(|second| vec![run.clone(), second.clone()])
            .collect()
    };
    first
        .map(below)
        .filter(|pairs: &Vec<Runs>| !pairs.is_empty())
        .collect()
}

#[derive(Default)]
struct Piece(Vec<Call>);

impl Piece {
    /// The list of the whole screen with each of these latches. The other bits of a kind are any: those that a drawing
    /// writes, or all of the byte's.
    fn try_latches(
        &mut self,
        chance: &mut Chance,
        runs: &Runs,
        latches: impl IntoIterator<Item = u8>,
    ) {
        let others = chance.of(&[0b111, 0xFF]) & !SCROLLING;
        for row in 0..ROWS {
            let scrolls = runs.iter().any(|run| run.contains(&row));
            let bit = if scrolls { SCROLLING } else { 0 };
            self.0.push(Call::AlterPicture {
                place: row * RECORD + KIND_AT,
                byte: chance.byte() & others | bit,
            });
        }
        for latch in latches {
            let machine = world::machine(chance);
            self.0.push(Call::SetMachine(Machine { latch, ..machine }));
            self.0.push(Call::ListLines);
        }
    }
}

#[cfg(test)]
mod tests {
    use super::*;

    /// A pattern is two ends of a run for one run, and four for two, out of the 26 places where a run may begin or end.
    #[test]
    fn every_pattern_is_there_once() {
        let (one, two) = (one_run().concat(), two_runs().concat());
        assert_eq!(
            (one.len(), two.len()),
            (1 + 25 * 26 / 2, 26 * 25 * 24 * 23 / 24)
        );
        let mut all = [one, two].concat();
        all.sort_by_key(|runs| {
            runs.iter()
                .flat_map(|run| [run.start, run.end])
                .collect::<Vec<_>>()
        });
        all.dedup();
        assert_eq!(all.len(), 1 + 325 + 14950);
    }
}
