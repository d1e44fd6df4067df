//! The desk's promise, document 02, ticket 6: "where no earlier row reads the named cell place, storing there a byte
//! that differs and is not FF changes that cell". It is tried on the library alone, whatever the model says.
use super::aim;
use super::call::Call;
use crate::chain::{PAIRS_AT, RECORD};
use crate::rainbow::{Seen, CELL};
use crate::why::Walk;

/// A cell that was explained, and the place that was named.
#[derive(Clone, Copy)]
pub struct Asked {
    row: usize,
    column: usize,
    pub place: usize,
}

impl Asked {
    /// The cell that a call explained, if it did.
    pub fn of(call: &Call, seen: &Seen) -> Option<Self> {
        match (*call, seen.explained.answer) {
            (Call::Explain { row, column }, CELL) => Some(Self {
                row,
                column,
                place: seen.explained.place.into(),
            }),
            _ => None,
        }
    }
}

/// A store into the place that was named of a cell, of a byte that differs and is not FF.
#[derive(Clone)]
pub struct Promise {
    asked: Asked,
    byte: u8,
    /// An earlier row reads the place, and so nothing is promised.
    earlier: bool,
    /// A later row reads it.
    later: bool,
    /// The picture before the store, which was a fresh one.
    before: Vec<u8>,
}

/// How often it was tried.
#[derive(Clone, Copy, Default)]
pub struct Promises {
    /// No earlier row reads the place; and of these, a later row does.
    pub tried: u64,
    pub read_later: u64,
    /// An earlier row reads the place; and of these, the cell shows the byte all the same.
    pub read_earlier: u64,
    pub shown_all_the_same: u64,
}

impl Promise {
    /// What the next call promises, if it is such a store. `before` is a fresh picture of the walk.
    pub fn of(asked: Asked, call: &Call, walk: &Walk, before: &[u8]) -> Option<Self> {
        let (address, byte) = match *call {
            Call::StoreWithPicture { address, byte } => (address, byte),
            _ => return None,
        };
        let named = address == aim::SCREEN + asked.place as u32;
        if !named || byte == 0xFF || byte == walk.holds(asked.place) {
            return None;
        }
        Some(Self {
            asked,
            byte,
            earlier: walk.read_ahead_of(asked.row, asked.place),
            later: walk.read_after(asked.row, asked.place),
            before: before.to_vec(),
        })
    }

    /// In a picture drawn afresh after the store the cell shows the byte, and no record of an earlier row changed.
    pub fn is_kept(&self, fresh: &[u8], counts: &mut Promises) -> Result<(), String> {
        let Asked { row, column, .. } = self.asked;
        let shown = fresh[row * RECORD + PAIRS_AT + 2 * column];
        if self.earlier {
            counts.read_earlier += 1;
            counts.shown_all_the_same += u64::from(shown == self.byte);
            return Ok(());
        }
        counts.tried += 1;
        counts.read_later += u64::from(self.later);
        let cell = format!("the place of row {row:X}, column {column:X}");
        if shown != self.byte {
            let byte = self.byte;
            return Err(format!(
                "{byte:02X} was stored into {cell}, which shows {shown:02X}"
            ));
        }
        let records = self.before.chunks(RECORD).zip(fresh.chunks(RECORD));
        match records
            .take(row)
            .position(|(before, after)| before != after)
        {
            Some(earlier) => Err(format!(
                "a store into {cell} changed row {earlier:X}, which does not read it"
            )),
            None => Ok(()),
        }
    }
}

impl Promises {
    pub fn add(&mut self, other: &Self) {
        self.tried += other.tried;
        self.read_later += other.read_later;
        self.read_earlier += other.read_earlier;
        self.shown_all_the_same += other.shown_all_the_same;
    }
}

#[cfg(test)]
mod tests {
    use super::*;
    use crate::chain::{draw, PLACES};

    /// Row 0 has its FF at 1, and row 1, from 256 on, two cells; row 2 begins at the second of them, leading to itself.
    fn screen() -> Vec<u8> {
        let mut screen = vec![b'A'; PLACES];
        screen[1..4].copy_from_slice(&[0xFF, 0x00, 0x01]);
        screen[258..261].copy_from_slice(&[0xFF, 0x01, 0x01]);
        screen
    }

    fn picture(screen: &[u8]) -> Vec<u8> {
        draw(screen, &[3; PLACES], 80).ok().unwrap().picture
    }

    /// What is promised where a byte is stored at a place of screen memory that was named for a cell.
    fn promise(row: usize, column: usize, place: usize, byte: u8) -> Option<Promise> {
        let walk = Walk::of(&screen(), &[3; PLACES], 80).unwrap();
        let asked = Asked { row, column, place };
        let address = aim::SCREEN + place as u32;
        let call = Call::StoreWithPicture { address, byte };
        Promise::of(asked, &call, &walk, &picture(&screen()))
    }

    #[test]
    fn what_makes_a_promise() {
        assert!(promise(1, 0, 256, b'B').is_some());
        assert!(promise(1, 0, 256, 0xFF).is_none());
        assert!(promise(1, 0, 256, b'A').is_none());
        let of = |promise: Option<Promise>| promise.map(|one| (one.earlier, one.later));
        assert_eq!(of(promise(1, 0, 256, b'B')), Some((false, false)));
        assert_eq!(of(promise(1, 1, 257, b'B')), Some((false, true)));
        assert_eq!(of(promise(2, 0, 257, b'B')), Some((true, true)));
        assert_eq!(of(promise(24, 0, 257, b'B')), Some((true, false)));
    }

    #[test]
    fn what_keeps_it() {
        let counts = &mut Promises::default();
        let promise = promise(1, 1, 257, b'B').unwrap();
        let mut stored = screen();
        let told = promise.is_kept(&picture(&stored), counts).unwrap_err();
        assert!(told.ends_with("which shows 41"), "{told}");
        stored[257] = b'B';
        assert_eq!(promise.is_kept(&picture(&stored), counts), Ok(()));
        stored[0] = b'C';
        let told = promise.is_kept(&picture(&stored), counts).unwrap_err();
        assert!(told.contains(" changed row 0, "), "{told}");
        assert_eq!((counts.tried, counts.read_later), (3, 3));
    }

    #[test]
    fn nothing_is_promised_where_an_earlier_row_reads_the_place() {
        let counts = &mut Promises::default();
        let promise = promise(2, 0, 257, b'B').unwrap();
        assert_eq!(promise.is_kept(&picture(&screen()), counts), Ok(()));
        let mut stored = screen();
        stored[257] = b'B';
        assert_eq!(promise.is_kept(&picture(&stored), counts), Ok(()));
        assert_eq!(counts.tried, 0);
        assert_eq!((counts.read_earlier, counts.shown_all_the_same), (2, 1));
    }
}
