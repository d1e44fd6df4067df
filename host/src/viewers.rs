//! Document 02, ticket 7: eight viewers on one screen. What was done is kept as a list, and an answer is read off it,
//! from its end back to the viewer's last ask.
use crate::chain::ROWS;
use crate::mending::{is_marked, MARK_BITS};
use crate::Answer;
use std::collections::BTreeSet;

/// "Keep a number of waiting marks for each of eight viewers"
pub const VIEWERS: usize = 8;

/// "10, a viewer over 7"
const NO_VIEWER: u8 = 10;

/// The rows of a number of marks. A caller may hold a number that has bits which no row has; they count as rows here.
pub type Rows = BTreeSet<usize>;

fn rows_of(marks: u32) -> Rows {
    (0..MARK_BITS)
        .filter(|row| is_marked(marks, *row))
        .collect()
}

fn number_of(rows: &Rows) -> u32 {
    rows.iter().map(|row| 2u32.pow(*row as u32)).sum()
}

#[derive(Clone)]
enum Event {
    /// A store marked these rows.
    Marked(Rows),
    Asked(usize),
    /// The start, or a fresh drawing, "which sets all rows for all".
    AllForAll,
}

#[derive(Clone)]
pub struct Viewers {
    /// What waited for each before the first event.
    first: [Rows; VIEWERS],
    events: Vec<Event>,
}

impl Viewers {
    /// "which sets all rows for all, as the start does"
    pub fn start() -> Self {
        let mut viewers = Self::given([0; VIEWERS]);
        viewers.drawn();
        viewers
    }

    /// Viewers for whom these numbers wait.
    pub fn given(numbers: [u32; VIEWERS]) -> Self {
        Self {
            first: numbers.map(rows_of),
            events: Vec::new(),
        }
    }

    /// "a store adds its marks to all eight"
    pub fn stored(&mut self, marks: u32) {
        self.events.push(Event::Marked(rows_of(marks)));
    }

    /// A fresh drawing was made.
    pub fn drawn(&mut self) {
        self.events.push(Event::AllForAll);
    }

    /// "a viewer who asks is handed its own and is cleared"
    pub fn ask(&mut self, viewer: usize) -> Answer<u32> {
        if viewer >= VIEWERS {
            return Err(NO_VIEWER);
        }
        let marks = number_of(&self.waiting(viewer));
        self.events.push(Event::Asked(viewer));
        Ok(marks)
    }

    /// "exactly the rows marked since that viewer's last ask, or since a fresh drawing"
    fn waiting(&self, viewer: usize) -> Rows {
        let mut rows = Rows::new();
        for event in self.events.iter().rev() {
            match event {
                Event::Marked(marked) => rows.extend(marked),
                Event::AllForAll => {
                    rows.extend(0..ROWS);
                    return rows;
                }
                Event::Asked(asker) if *asker == viewer => return rows,
                Event::Asked(_) => {}
            }
        }
        rows.extend(&self.first[viewer]);
        rows
    }

    /// The number that waits for each.
    pub fn numbers(&self) -> [u32; VIEWERS] {
        std::array::from_fn(|viewer| number_of(&self.waiting(viewer)))
    }
}

#[cfg(test)]
mod tests {
    use super::*;

    const ALL_ROWS: u32 = 0x01FF_FFFF;

    fn asks(viewers: &mut Viewers, order: &[usize]) -> Vec<Answer<u32>> {
        order.iter().map(|viewer| viewers.ask(*viewer)).collect()
    }

    /// "a fresh drawing, which sets all rows for all, as the start does"
    #[test]
    fn at_the_start_and_after_a_drawing_all_rows_wait_for_all() {
        let mut viewers = Viewers::start();
        assert_eq!(viewers.numbers(), [ALL_ROWS; VIEWERS]);
        assert_eq!(
            asks(&mut viewers, &[7, 7, 0]),
            [Ok(ALL_ROWS), Ok(0), Ok(ALL_ROWS)]
        );
        viewers.drawn();
        assert_eq!(viewers.numbers(), [ALL_ROWS; VIEWERS]);
        let mut any = Viewers::given([u32::MAX; VIEWERS]);
        any.drawn();
        assert_eq!(any.numbers(), [ALL_ROWS; VIEWERS]);
    }

    /// "a store adds its marks to all eight, and a viewer who asks is handed its own and is cleared. Asking changes no
    /// other viewer's answer"
    #[test]
    fn marks_wait_until_they_are_asked_for() {
        let mut viewers = Viewers::given([0; VIEWERS]);
        viewers.stored(0b0110);
        assert_eq!(viewers.numbers(), [0b0110; VIEWERS]);
        assert_eq!(viewers.ask(2), Ok(0b0110));
        viewers.stored(0b1100);
        assert_eq!(
            viewers.numbers(),
            [0b1110, 0b1110, 0b1100, 0b1110, 0b1110, 0b1110, 0b1110, 0b1110]
        );
        assert_eq!(
            asks(&mut viewers, &[2, 2, 5]),
            [Ok(0b1100), Ok(0), Ok(0b1110)]
        );
        viewers.stored(0);
        assert_eq!(viewers.ask(2), Ok(0));
    }

    /// "Refusals: 10, a viewer over 7"
    #[test]
    fn a_viewer_over_7_is_refused_and_changes_nothing() {
        let numbers = [1, 2, 3, 4, 5, 6, 0xFE00_0007, u32::MAX];
        let mut viewers = Viewers::given(numbers);
        for viewer in [8, 9, 255, 256, usize::MAX] {
            assert_eq!(viewers.ask(viewer), Err(10));
        }
        assert_eq!(viewers.numbers(), numbers);
        assert_eq!(asks(&mut viewers, &[7, 6]), [Ok(u32::MAX), Ok(0xFE00_0007)]);
    }
}
