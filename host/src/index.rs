//! Document 02, ticket 8: an index of first readers, and a store of a byte by the 8088 with a picture and an index.
use crate::chain::{draw, read_by_rows, PICTURE, RECORD, ROWS};
use crate::machine::Machine;
use crate::memories::{View8088, SCREEN};
use crate::Answer;

/// "Keep in 8,192 bytes"
pub const INDEX: usize = 8192;

/// "or 255"
pub const NO_ROW: u8 = 255;

/// For each place of screen and then of attribute memory, the rows that read it.
pub fn readers(screen: &[u8], attribute: &[u8], columns: usize) -> Answer<Vec<Vec<u8>>> {
    let mut readers = vec![Vec::new(); INDEX];
    for (row, places) in (0..).zip(read_by_rows(screen, attribute, columns)?) {
        let beside = places.attribute.iter().map(|place| SCREEN + place);
        for place in places.screen.iter().copied().chain(beside) {
            readers[place].push(row);
        }
    }
    Ok(readers)
}

/// "for each place of screen and then of attribute memory, the number of the first row that reads it, or 255"
pub fn index(screen: &[u8], attribute: &[u8], columns: usize) -> Answer<Vec<u8>> {
    let readers = readers(screen, attribute, columns)?.into_iter();
    Ok(readers
        .map(|rows| rows.into_iter().min().unwrap_or(NO_ROW))
        .collect())
}

/// "takes f from it and not from the walk, over 24 being no row". Shared memory has no entry.
fn row_named(index: &[u8], address: u32) -> Option<usize> {
    let place = (address & 0xFFF) as usize;
    let entry = match address >> 12 {
        0xEE => index[place],
        0xEF => index[SCREEN + place],
        _ => return None,
    };
    Some(usize::from(entry)).filter(|row| *row < ROWS)
}

/// Stores the byte and mends picture and index. The answer's bit r is set if record r changed. A refused store changes
/// nothing.
pub fn store(
    view: &mut View8088,
    picture: &mut [u8],
    kept: &mut [u8],
    machine: &Machine,
    address: u32,
    byte: u8,
) -> Answer<u32> {
    if picture.len() != PICTURE || kept.len() != INDEX {
        return Err(1);
    }
    view.store(machine, address, byte)?;
    let Some(first) = row_named(kept, address) else {
        return Ok(0);
    };
    let columns = machine.columns.into();
    let new_index = index(&view.screen, &view.attribute, columns)?;
    for (entry, new) in kept.iter_mut().zip(new_index) {
        if usize::from(*entry) >= first {
            *entry = new;
        }
    }
    let new_picture = draw(&view.screen, &view.attribute, columns)?.picture;
    let mut marks = 0;
    for row in first..ROWS {
        let record = row * RECORD..(row + 1) * RECORD;
        if picture[record.clone()] != new_picture[record.clone()] {
            marks |= 1 << row;
        }
        picture[record.clone()].copy_from_slice(&new_picture[record]);
    }
    Ok(marks)
}

#[cfg(test)]
mod tests {
    use super::*;
    use crate::memories::{ATTRIBUTE, SHARED};
    use crate::mending;

    const COLUMNS: usize = 80;

    /// Row 0 is AB, row 1 at 256 is CD, row 2 at 512 has no cells and leads to itself.
    fn three_rows() -> View8088 {
        let mut view = View8088::new(SHARED, SCREEN, ATTRIBUTE);
        view.screen[..5].copy_from_slice(&[0x41, 0x42, 0xFF, 0x00, 0x01]);
        view.screen[256..261].copy_from_slice(&[0x43, 0x44, 0xFF, 0x00, 0x02]);
        view.screen[512..515].copy_from_slice(&[0xFF, 0x00, 0x02]);
        view.attribute.fill(0x0B);
        view
    }

    fn fresh(view: &View8088) -> Vec<u8> {
        index(&view.screen, &view.attribute, COLUMNS).unwrap()
    }

    fn drawn(view: &View8088) -> Vec<u8> {
        let drawn = draw(&view.screen, &view.attribute, COLUMNS);
        drawn.ok().unwrap().picture
    }

    /// An index that has rows at these entries and nowhere else.
    fn index_of(rows: &[(usize, u8)]) -> Vec<u8> {
        let mut index = vec![NO_ROW; INDEX];
        for (place, row) in rows {
            index[*place] = *row;
        }
        index
    }

    /// The memories, a picture of bytes that no drawing makes, and an index.
    struct Kept {
        view: View8088,
        picture: Vec<u8>,
        index: Vec<u8>,
    }

    impl Kept {
        fn new(index: Vec<u8>) -> Self {
            Self {
                view: three_rows(),
                picture: vec![0x5A; PICTURE],
                index,
            }
        }

        /// A store at power-up, when there are 80 columns.
        fn store(&mut self, address: u32, byte: u8) -> Answer<u32> {
            let (view, picture, index) = (&mut self.view, &mut self.picture, &mut self.index);
            store(view, picture, index, &Machine::power_up(), address, byte)
        }

        /// The first record that is not as it was, if one is.
        fn first_mended(&self) -> Option<usize> {
            let mut records = self.picture.chunks(RECORD);
            records.position(|record| record != [0x5A; RECORD])
        }
    }

    /// The marks of the rows from one on.
    fn marks_from(row: usize) -> u32 {
        (row..ROWS).map(|row| 1 << row).sum()
    }

    /// "for each place of screen and then of attribute memory, the number of the first row that reads it, or 255". "A
    /// row with n cells reads n + 3 bytes of screen memory"; it "also reads the attribute byte beside each of its cells
    /// and, unless torn, the one beside its low link byte".
    #[test]
    fn first_readers_of_three_rows() {
        let screen = [(0..5, 0), (256..261, 1), (512..515, 2)];
        let attribute = [
            (0..2, 0),
            (3..4, 0),
            (256..258, 1),
            (259..260, 1),
            (513..514, 2),
        ];
        let beside = attribute.map(|(places, row)| (places.start + 4096..places.end + 4096, row));
        let entries = screen.into_iter().chain(beside);
        let entries = entries.flat_map(|(places, row)| places.map(move |place| (place, row)));
        assert_eq!(fresh(&three_rows()), index_of(&entries.collect::<Vec<_>>()));
    }

    /// P2: "a torn one capacity + 1", "a dark one none". The attribute byte beside the last of a torn row's bytes is
    /// not that of a cell.
    #[test]
    fn what_a_torn_row_reads() {
        let view = View8088::new(SHARED, SCREEN, ATTRIBUTE);
        let entries = (0..81).chain(4096..4096 + 80).map(|place| (place, 0));
        assert_eq!(fresh(&view), index_of(&entries.collect::<Vec<_>>()));
        let at_132 = index(&view.screen, &view.attribute, 132).unwrap();
        let entries = (0..133).chain(4096..4096 + 132).map(|place| (place, 0));
        assert_eq!(at_132, index_of(&entries.collect::<Vec<_>>()));
    }

    /// P1: row 0 reads places 0 to 2, and all others 4095, 0 and 1. "the number of the first row"; "all places are
    /// taken modulo 4,096".
    #[test]
    fn the_first_of_all_rows_that_read_a_place() {
        let mut view = View8088::new(SHARED, SCREEN, ATTRIBUTE);
        view.screen.fill(0xFF);
        let screen = [(0, 0), (1, 0), (2, 0), (4095, 1)];
        let attribute = [(4096 + 1, 0), (4096, 1)];
        assert_eq!(fresh(&view), index_of(&[&screen[..], &attribute].concat()));
    }

    /// 02, ticket 5: "The chain is now walked for 25 rows": row 24 is the last that reads.
    #[test]
    fn row_24_reads_and_no_row_after_it() {
        let mut view = View8088::new(SHARED, SCREEN, ATTRIBUTE);
        for row in 0..30 {
            view.screen[8 * row..8 * row + 3].copy_from_slice(&[0xFF, 8 * (row + 1) as u8, 0]);
        }
        let index = fresh(&view);
        let last = [24, 24, 24, 255, 255, 255, 255, 255];
        assert_eq!(index[8 * 24..8 * 25], last);
        assert_eq!(index[8 * 25..4096], [255; 4096 - 8 * 25]);
        assert_eq!(index[4096 + 8 * 24 + 1], 24);
        assert_eq!(index[4096 + 8 * 25 + 1], 255);
    }

    /// "With a true index the store's answer is the same as without one." "After any such run the kept index equals the
    /// one worked out from memory afresh".
    #[test]
    fn with_a_true_index() {
        let places = [
            0, 2, 3, 4, 5, 256, 258, 259, 260, 261, 512, 513, 514, 515, 4095,
        ];
        for address in places
            .map(|place| [0xEE000 + place, 0xEF000 + place])
            .concat()
        {
            for byte in [0x00, 0x01, 0x41, 0xFB, 0xFF] {
                let mut kept = Kept::new(fresh(&three_rows()));
                let (mut view, mut picture) = (three_rows(), kept.picture.clone());
                let machine = Machine::power_up();
                let without = mending::store(&mut view, &mut picture, &machine, address, byte);
                assert_eq!(kept.store(address, byte), without, "{address:X} {byte:X}");
                assert_eq!(kept.picture, picture);
                assert_eq!(
                    (&kept.view.screen, &kept.view.attribute),
                    (&view.screen, &view.attribute)
                );
                assert_eq!(kept.index, fresh(&view), "{address:X} {byte:X}");
            }
        }
    }

    /// "takes f from it and not from the walk": row 0 reads place 0, but its record stays.
    #[test]
    fn f_is_taken_from_the_index() {
        for first in [0, 1, 2, 23, 24] {
            let mut kept = Kept::new(index_of(&[(0, first)]));
            let first = usize::from(first);
            assert_eq!(kept.store(0xEE000, 0x45), Ok(marks_from(first)));
            assert_eq!(kept.first_mended(), Some(first));
            assert_eq!(
                kept.picture[first * RECORD..],
                drawn(&kept.view)[first * RECORD..]
            );
        }
    }

    /// "over 24 being no row", "with no row all stay". The byte is stored all the same.
    #[test]
    fn an_entry_over_24_is_no_row() {
        for entry in [25, 26, 31, 128, 254, 255] {
            let mut index = vec![30; INDEX];
            index[0] = entry;
            let mut kept = Kept::new(index.clone());
            assert_eq!(kept.store(0xEE000, 0x45), Ok(0));
            assert_eq!((kept.first_mended(), &kept.index), (None, &index));
            assert_eq!(kept.view.screen[0], 0x45);
        }
    }

    /// "Entries under f stay, the others become those of the memory after the store": it is the entry that is under f
    /// or not, wherever it stands, and what it becomes may be under f.
    #[test]
    fn entries_under_f_stay() {
        let entries = [
            (0, 1),
            (3, 9),
            (256, 4),
            (257, 5),
            (512, 24),
            (600, 0),
            (700, 5),
            (701, 25),
            (4096, 254),
        ];
        let mut kept = Kept::new(index_of(&[&entries[..], &[(260, 5)]].concat()));
        assert_eq!(kept.store(0xEE104, 0x02), Ok(marks_from(5)));
        let after = &kept.index;
        let stayed = [after[0], after[256], after[600]];
        assert_eq!(stayed, [1, 4, 0]);
        let became = [3, 257, 260, 512, 700, 701, 4096, 4097].map(|entry| after[entry]);
        assert_eq!(became, [0, 1, 1, 2, 255, 255, 0, 0]);
        let true_index = fresh(&kept.view);
        let others = (0..INDEX).filter(|entry| ![0, 256, 600].contains(entry));
        for entry in others {
            assert_eq!(after[entry], true_index[entry], "{entry}");
        }
    }

    /// "for each place of screen and then of attribute memory"
    #[test]
    fn entries_of_attribute_memory_come_after_those_of_screen_memory() {
        for (address, entry) in [
            (0xEE000, 0),
            (0xEEFFF, 4095),
            (0xEF000, 4096),
            (0xEFFFF, 8191),
        ] {
            let mut kept = Kept::new(index_of(&[(entry, 7)]));
            assert_eq!(kept.store(address, 0x45), Ok(marks_from(7)), "{address:X}");
            let mut index = vec![7; INDEX];
            index[entry] = NO_ROW;
            let mut kept = Kept::new(index.clone());
            assert_eq!((kept.store(address, 0x45), &kept.index), (Ok(0), &index));
        }
    }

    /// The index is of screen and attribute memory: a byte of shared memory has no entry, and so no row.
    #[test]
    fn shared_memory_has_no_entry() {
        for address in [0x00000, 0x00FFF, 0x01000, 0x0EE00, 0x0EF00, 0x0FFFF] {
            let mut kept = Kept::new(vec![0; INDEX]);
            assert_eq!(kept.store(address, 0x77), Ok(0));
            assert_eq!((kept.first_mended(), kept.index), (None, vec![0; INDEX]));
            assert_eq!(kept.view.shared[address as usize], 0x77);
        }
    }

    /// P13: "store 01 at place 2: row 1 torn at 256". "Stopping the mend at the row that was hit: a link moves every
    /// row after it."
    #[test]
    fn a_link_that_moves_renews_the_index() {
        let mut kept = Kept::new(Vec::new());
        kept.view = View8088::new(SHARED, SCREEN, ATTRIBUTE);
        kept.view.screen[0] = 0xFF;
        kept.view.attribute.fill(0x03);
        kept.index = fresh(&kept.view);
        kept.picture = drawn(&kept.view);
        assert_eq!((kept.index[2], kept.index[256]), (0, 255));
        assert_eq!(kept.store(0xEE002, 0x01), Ok(marks_from(1)));
        assert_eq!(
            [2, 255, 256, 336, 337, 4096 + 335, 4096 + 336].map(|entry| kept.index[entry]),
            [0, 255, 1, 1, 255, 1, 255]
        );
        assert_eq!(kept.index, fresh(&kept.view));
        assert_eq!(kept.store(0xEE002, 0x00), Ok(marks_from(1)));
        assert_eq!((kept.index[2], kept.index[256]), (0, 255));
    }

    /// "bit r is set exactly when record r changed"
    #[test]
    fn marks_are_of_the_records_that_changed() {
        let mut kept = Kept::new(index_of(&[(0, 0)]));
        kept.picture = drawn(&kept.view);
        kept.picture[PICTURE - 1] ^= 1;
        assert_eq!(kept.store(0xEE000, 0x45), Ok(1 | 1 << 24));
        assert_eq!(kept.picture, drawn(&kept.view));
    }

    /// "1: a lent buffer's length differs from the list", "2: the 8088's address lies in none of its three ranges",
    /// "The lowest number wins." "all buffers and the machine stay". 02, ticket 3: "8, the 8088 is in reset, after 1,
    /// ahead of 2 to 6".
    #[test]
    fn refused_stores_change_nothing() {
        let right = [SHARED, SCREEN, ATTRIBUTE, PICTURE, INDEX];
        let mut refused = Vec::new();
        for buffer in 0..right.len() {
            for length in [0, right[buffer] - 1, right[buffer] + 1, 2 * right[buffer]] {
                let mut lengths = right;
                lengths[buffer] = length;
                refused.extend([(lengths, 0xEE000, false, 1), (lengths, 0xF0000, true, 1)]);
            }
        }
        refused.extend([
            (right, 0xEE000, true, 8),
            (right, 0xF0000, true, 8),
            (right, 0x00000, true, 8),
        ]);
        refused.extend([
            (right, 0xEDFFF, false, 2),
            (right, 0xF0000, false, 2),
            (right, 0x10000, false, 2),
        ]);
        for (lengths, address, reset, number) in refused {
            let [shared, screen, attribute, picture, index] = lengths;
            let mut view = View8088::new(shared, screen, attribute);
            let (mut picture, mut index) = (vec![0x5A; picture], vec![0; index]);
            let before = (view.clone(), picture.clone(), index.clone());
            let machine = Machine {
                reset,
                ..Machine::power_up()
            };
            let stored = store(&mut view, &mut picture, &mut index, &machine, address, 0x77);
            assert_eq!(stored, Err(number), "{lengths:?} {address:X} {reset}");
            assert_eq!(
                (&view.shared, &view.screen),
                (&before.0.shared, &before.0.screen)
            );
            assert_eq!(
                (&view.attribute, picture, index),
                (&before.0.attribute, before.1, before.2)
            );
        }
    }

    /// "1: a lent buffer's length differs from the list"
    #[test]
    fn an_index_of_memories_of_other_lengths() {
        for (screen, attribute) in [
            (4095, 4096),
            (4097, 4096),
            (4096, 4095),
            (0, 4096),
            (4096, 8192),
        ] {
            let refused = index(&vec![0xFF; screen], &vec![0; attribute], COLUMNS);
            assert_eq!(refused, Err(1));
        }
    }
}
