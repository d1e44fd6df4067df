//! The viewers of a run, document 02, ticket 7. Each has a copy of the picture, and takes over the records that are
//! marked when it asks, and no others: then the copy has to be the picture. One of them is beside itself in a run in
//! which no other viewer asks: "Asking changes no other viewer's answer".
use super::call::{Buffer, Call, Step};
use super::fault::Fault;
use super::library::Library;
use crate::chain::{PICTURE, RECORD};
use crate::mending::is_marked;
use crate::rainbow::Seen;
use crate::viewers::VIEWERS;

#[derive(Clone)]
pub struct Copies {
    pictures: Vec<Vec<u8>>,
    /// All rows were set for all, and since then only calls that serve viewers have changed the picture.
    served: bool,
    pub told: Told,
}

/// How often a viewer that asked was handed marks, and none; how often a copy was compared with the kept picture and
/// with one drawn afresh; and how often an answer was, with that of a run in which no other viewer asks.
#[derive(Clone, Copy, Default)]
pub struct Told {
    pub rows: u64,
    pub none: u64,
    pub kept: u64,
    pub fresh: u64,
    pub quiet: u64,
}

impl Told {
    pub fn add(&mut self, other: &Self) {
        self.rows += other.rows;
        self.none += other.none;
        self.kept += other.kept;
        self.fresh += other.fresh;
        self.quiet += other.quiet;
    }

    pub fn counts(&self) -> [u64; 5] {
        [self.rows, self.none, self.kept, self.fresh, self.quiet]
    }
}

/// The first row in which two pictures differ.
fn other_row(one: &[u8], other: &[u8]) -> Option<usize> {
    let mut rows = one.chunks(RECORD).zip(other.chunks(RECORD));
    rows.position(|(one, other)| one != other)
}

impl Copies {
    /// Copies of which no byte is known.
    pub fn new() -> Self {
        Self {
            pictures: vec![vec![0xA7; PICTURE]; VIEWERS],
            served: false,
            told: Told::default(),
        }
    }

    /// The picture or the viewers were changed by hand.
    pub fn left_behind(&mut self) {
        self.served = false;
    }

    /// A call was made.
    pub fn after(&mut self, call: &Call, seen: &Seen) {
        let accepted = seen.refusal == 0;
        self.served = match call {
            Call::StartViewers => true,
            Call::DrawForViewers if accepted => true,
            Call::Draw | Call::StoreWithPicture { .. } | Call::StoreWithIndex { .. }
                if accepted =>
            {
                false
            }
            _ => self.served,
        };
    }

    /// A viewer was handed these marks. `fresh` is a picture drawn afresh, which the kept one has to be.
    pub fn asked(
        &mut self,
        viewer: usize,
        marks: u64,
        picture: &[u8],
        fresh: impl FnOnce() -> Option<Vec<u8>>,
    ) -> Result<(), String> {
        match marks {
            0 => self.told.none += 1,
            _ => self.told.rows += 1,
        }
        let copy = &mut self.pictures[viewer];
        let records = copy.chunks_mut(RECORD).zip(picture.chunks(RECORD));
        for (row, (record, kept)) in records.enumerate() {
            if is_marked(marks as u32, row) {
                record.copy_from_slice(kept);
            }
        }
        if !self.served {
            return Ok(());
        }
        self.told.kept += 1;
        if let Some(row) = other_row(copy, picture) {
            return Err(format!(
                "viewer {viewer:X} took over the rows {marks:X}, and its copy differs from the kept picture in row {row:X}"
            ));
        }
        let Some(fresh) = fresh() else {
            return Ok(());
        };
        self.told.fresh += 1;
        match other_row(copy, &fresh) {
            Some(row) => Err(format!(
                "the copy of viewer {viewer:X} differs from a picture drawn afresh in row {row:X}"
            )),
            None => Ok(()),
        }
    }
}

/// The same run of the library, but that no viewer asks except this one.
#[derive(Clone)]
pub struct Quiet {
    viewer: usize,
    pub library: Library,
}

impl Quiet {
    pub fn new(viewer: usize, library: Library) -> Self {
        Self { viewer, library }
    }

    /// Makes the call, if it is made in this run, and compares what the viewer is handed and what waits for it with the
    /// run in which the others ask too.
    pub fn beside(
        &mut self,
        step: &Step,
        fault: Fault,
        seen: &Seen,
        loud: &Library,
        told: &mut Told,
    ) -> Result<(), String> {
        let viewer = self.viewer;
        let asks = matches!(step.call, Call::Ask { .. });
        if step.call != (Call::Ask { viewer }) && asks {
            return self.same(loud.viewers[viewer]);
        }
        let quiet = self.library.call(step)?;
        fault.of_viewers(&step.call, &quiet, &mut self.library.viewers);
        if asks {
            told.quiet += 1;
            if (quiet.refusal, quiet.value) != (seen.refusal, seen.value) {
                return Err(format!(
                    "viewer {viewer:X} is handed {:X}, but {:X} where no other viewer asks",
                    seen.value, quiet.value
                ));
            }
        }
        self.same(loud.viewers[viewer])
    }

    fn same(&self, loud: u32) -> Result<(), String> {
        let (viewer, quiet) = (self.viewer, self.library.viewers[self.viewer]);
        match quiet == loud {
            true => Ok(()),
            false => Err(format!(
                "{loud:X} wait for viewer {viewer:X}, but {quiet:X} where no other viewer asks"
            )),
        }
    }

    /// Every byte that the two runs have is the same, whoever asks.
    pub fn same_memories(&self, loud: &Library) -> Result<(), String> {
        for buffer in [
            Buffer::Shared,
            Buffer::Screen,
            Buffer::Attribute,
            Buffer::Picture,
            Buffer::Index,
        ] {
            if self.library.content(buffer) != loud.content(buffer) {
                return Err(format!(
                    "{}: it differs where no other viewer asks",
                    buffer.name()
                ));
            }
        }
        Ok(())
    }
}

#[cfg(test)]
mod tests {
    use super::*;
    use crate::chain::ROWS;

    const ALL: u64 = (1 << ROWS) - 1;

    fn pictures() -> (Vec<u8>, Vec<u8>) {
        let before = vec![1; PICTURE];
        let mut after = before.clone();
        after[5 * RECORD] = 2;
        after[PICTURE - 1] = 2;
        (before, after)
    }

    /// A copy is the picture only if the records that changed are taken over.
    #[test]
    fn a_viewer_that_is_not_told_of_a_row_is_found() {
        let (before, after) = pictures();
        for (marks, row) in [
            (1 << 5, Some("18")),
            (1 << 24, Some("5")),
            (1 << 24 | 1 << 5, None),
            (ALL, None),
        ] {
            let mut copies = Copies::new();
            copies.after(&Call::StartViewers, &Seen::default());
            assert_eq!(copies.asked(3, ALL, &before, || None), Ok(()));
            let told = copies.asked(3, marks, &after, || None);
            assert_eq!(told.is_ok(), row.is_none());
            if let (Err(told), Some(row)) = (told, row) {
                assert!(told.ends_with(&format!("in row {row}")), "{told}");
            }
        }
    }

    /// A kept picture that is not the one of the memories is found by one drawn afresh.
    #[test]
    fn a_picture_that_is_left_behind_is_found() {
        let (before, after) = pictures();
        let mut copies = Copies::new();
        copies.after(&Call::DrawForViewers, &Seen::default());
        assert!(copies.asked(0, ALL, &before, || Some(after)).is_err());
        copies.left_behind();
        assert_eq!(copies.asked(1, 0, &before, || None), Ok(()));
        assert_eq!(copies.told.counts(), [1, 1, 1, 1, 0]);
    }

    #[test]
    fn what_leaves_the_copies_behind() {
        let (before, after) = pictures();
        let store = Call::StoreWithPicture {
            address: 0,
            byte: 0,
        };
        let (address, byte) = (0, 0);
        for call in [Call::Draw, store, Call::StoreWithIndex { address, byte }] {
            let mut copies = Copies::new();
            copies.after(&Call::DrawForViewers, &Seen::default());
            copies.after(&call, &Seen::refusal(1));
            assert_eq!(copies.asked(7, ALL, &before, || None), Ok(()));
            assert!(copies.asked(7, 0, &after, || None).is_err());
            copies.after(&call, &Seen::default());
            assert_eq!(copies.asked(7, 0, &after, || None), Ok(()));
        }
    }
}
