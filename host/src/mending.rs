//! Document 01, "The picture": a store of a byte by the 8088 with a picture lent.
use crate::chain::{draw, read_by_rows, Places, PICTURE, RECORD};
use crate::machine::Machine;
use crate::memories::View8088;
use crate::Answer;

/// The marks are a number of so many bits, of which there is one for each row.
pub const MARK_BITS: usize = u32::BITS as usize;

/// The first row that reads the byte at an address, by the walk of the memories as they are. No row
/// reads shared memory.
fn first_reader(view: &View8088, columns: usize, address: u32) -> Answer<Option<usize>> {
    let place = (address & 0xFFF) as usize;
    let reads = |row: &Places| match address >> 12 {
        0xEE => row.screen.contains(&place),
        0xEF => row.attribute.contains(&place),
        _ => false,
    };
    let rows = read_by_rows(&view.screen, &view.attribute, columns)?;
    Ok(rows.iter().position(reads))
}

/// Stores the byte and mends the picture. The answer's bit r is set if record r changed. A refused
/// store changes nothing.
pub fn store(
    view: &mut View8088,
    picture: &mut [u8],
    machine: &Machine,
    address: u32,
    byte: u8,
) -> Answer<u32> {
    if picture.len() != PICTURE {
        return Err(1);
    }
    let columns = machine.columns.into();
    view.read(machine, address)?;
    let first = first_reader(view, columns, address)?;
    view.store(machine, address, byte)?;
    let fresh = draw(&view.screen, &view.attribute, columns)?.picture;
    let mut marks = 0;
    for (row, record) in picture.chunks_mut(RECORD).enumerate() {
        let mended = match first {
            Some(first) if first <= row => &fresh[row * RECORD..][..RECORD],
            _ => continue,
        };
        if record != mended {
            marks |= 1 << row;
        }
        record.copy_from_slice(mended);
    }
    Ok(marks)
}

/// Whether bit `row` of the marks is set.
pub fn is_marked(marks: u32, row: usize) -> bool {
    row < MARK_BITS && marks >> row & 1 == 1
}

#[cfg(test)]
mod tests {
    use super::*;
    use crate::chain::ROWS;
    use crate::memories::{ATTRIBUTE, SCREEN, SHARED};

    const COLUMNS: usize = 80;

    /// The memories of P13: "screen FF then 00s, attribute all 03".
    fn p13() -> View8088 {
        let mut view = View8088::new(SHARED, SCREEN, ATTRIBUTE);
        view.screen[0] = 0xFF;
        view.attribute.fill(0x03);
        view
    }

    /// Row 0 is AB, row 1 at 256 is CD, row 2 at 512 has no cells and leads to itself.
    fn three_rows() -> View8088 {
        let mut view = View8088::new(SHARED, SCREEN, ATTRIBUTE);
        view.screen[..5].copy_from_slice(&[0x41, 0x42, 0xFF, 0x00, 0x01]);
        view.screen[256..261].copy_from_slice(&[0x43, 0x44, 0xFF, 0x00, 0x02]);
        view.screen[512..515].copy_from_slice(&[0xFF, 0x00, 0x02]);
        view.attribute.fill(0x0B);
        view
    }

    /// A store at power-up, when there are 80 columns.
    fn stored(view: &mut View8088, picture: &mut [u8], address: u32, byte: u8) -> Answer<u32> {
        store(view, picture, &Machine::power_up(), address, byte)
    }

    fn fresh(view: &View8088) -> Vec<u8> {
        let drawn = draw(&view.screen, &view.attribute, COLUMNS);
        drawn.ok().unwrap().picture
    }

    /// A picture of bytes that no drawing makes.
    fn untrue() -> Vec<u8> {
        vec![0x5A; PICTURE]
    }

    fn record(picture: &[u8], row: usize) -> &[u8] {
        &picture[row * RECORD..][..RECORD]
    }

    /// The marks of every row but row 0.
    const ALL_BUT_ROW_0: u32 = (1 << ROWS) - 2;

    /// "store 01 at place 2: row 1 torn at 256", and the marks of rows 1 to 24, not 0: 02, ticket 5, has P13 "gain a row".
    /// "In P13 row 0 reads the byte but its record stays." "Stopping the mend at the row that was hit: a link moves every
    /// row after it."
    #[test]
    fn p13_link() {
        let mut view = p13();
        let mut picture = fresh(&view);
        let marks = stored(&mut view, &mut picture, 0xEE002, 0x01);
        assert_eq!(marks, Ok(ALL_BUT_ROW_0));
        assert_eq!(record(&picture, 1)[..4], [0x01, 0x00, 3, 255]);
        assert_eq!(picture, fresh(&view));
    }

    /// "Records before f stay; records from f on become those of the walk after the store", "for every picture, true
    /// or not".
    #[test]
    fn records_before_the_first_reader_stay() {
        let (mut view, mut picture) = (three_rows(), untrue());
        let marks = stored(&mut view, &mut picture, 0xEE101, 0x45);
        assert_eq!(marks, Ok(ALL_BUT_ROW_0));
        assert_eq!(picture[..RECORD], untrue()[..RECORD]);
        assert_eq!(picture[RECORD..], fresh(&view)[RECORD..]);
        assert_eq!(record(&picture, 1)[4..8], [0x43, 0x0B, 0x45, 0x0B]);
    }

    /// "Let f be the first row that reads the stored byte": a row reads its cells, FF, the two link bytes, and the
    /// attributes beside its cells and beside the low link byte.
    #[test]
    fn first_readers() {
        let screen = [(0, 0), (1, 0), (2, 0), (3, 0), (4, 0), (256, 1), (260, 1)];
        let attribute = [(0, 0), (1, 0), (3, 0), (256, 1), (259, 1), (513, 2)];
        let screen = screen.map(|(place, row)| (0xEE000 + place, row));
        let attribute = attribute.map(|(place, row)| (0xEF000 + place, row));
        for (address, row) in screen.into_iter().chain(attribute) {
            let first = first_reader(&three_rows(), COLUMNS, address);
            assert_eq!(first, Ok(Some(row)), "{address:X}");
        }
    }

    /// "If no row reads it, no record changes." The byte is stored all the same.
    #[test]
    fn a_byte_that_no_row_reads() {
        let beside_ff_and_high_link_byte = [0xEF002, 0xEF004];
        let after_the_link = [0xEE005, 0xEF005];
        let in_shared_memory = [0x00000, 0x0EE00];
        let addresses = [
            beside_ff_and_high_link_byte,
            after_the_link,
            in_shared_memory,
        ];
        for address in addresses.concat() {
            let (mut view, mut picture) = (three_rows(), untrue());
            let marks = stored(&mut view, &mut picture, address, 0x77);
            assert_eq!(marks, Ok(0), "{address:X}");
            assert_eq!(picture, untrue());
            assert_eq!(view.read(&Machine::power_up(), address), Ok(0x77));
        }
    }

    /// "With a true picture, marking a row for a store of the same byte, or of attribute bits 4 to 7."
    #[test]
    fn stores_that_change_no_record() {
        for (address, byte) in [(0xEE000, 0x41), (0xEE002, 0xFF), (0xEF000, 0xFB)] {
            let mut view = three_rows();
            let mut picture = fresh(&view);
            let marks = stored(&mut view, &mut picture, address, byte);
            assert_eq!(marks, Ok(0), "{address:X}");
            assert_eq!(view.read(&Machine::power_up(), address), Ok(byte));
        }
    }

    /// "Rows, marks and read counts stay.": a store that makes a link wild, or tame again, marks no row.
    #[test]
    fn a_wild_link_marks_no_row() {
        let mut view = three_rows();
        let mut picture = fresh(&view);
        for (byte, wild) in [(0x92, Some(1)), (0xF2, Some(1)), (0x02, None)] {
            let marks = stored(&mut view, &mut picture, 0xEE104, byte);
            assert_eq!((marks, &picture), (Ok(0), &fresh(&view)));
            let drawn = draw(&view.screen, &view.attribute, COLUMNS);
            assert_eq!(drawn.ok().unwrap().wild, wild);
        }
    }

    /// "bit r is set exactly when record r changed": also where the kept record was not true.
    #[test]
    fn marks_are_of_the_records_that_changed() {
        let mut view = three_rows();
        let mut picture = fresh(&view);
        picture[5 * RECORD + 9] ^= 1;
        picture[PICTURE - 1] ^= 1;
        let marks = stored(&mut view, &mut picture, 0xEE000, 0x46);
        assert_eq!(marks, Ok(1 << (ROWS - 1) | 1 << 5 | 1));
        assert_eq!(picture, fresh(&view));
    }

    /// "1: a lent buffer's length differs from the list", "2: the 8088's address lies in none of its three ranges",
    /// "The lowest number wins." "all buffers and the machine stay". 02, ticket 3: "8, the 8088 is in reset, after 1,
    /// ahead of 2 to 6".
    #[test]
    fn refused_stores_change_nothing() {
        for (length, address, reset, number) in [
            (PICTURE - 1, 0xEE000, false, 1),
            (PICTURE + 1, 0xF0000, false, 1),
            (PICTURE, 0xEDFFF, false, 2),
            (PICTURE, 0xF0000, false, 2),
            (PICTURE - 1, 0xEE000, true, 1),
            (PICTURE + 1, 0xF0000, true, 1),
            (PICTURE, 0xF0000, true, 8),
            (PICTURE, 0xEE000, true, 8),
            (PICTURE, 0x00000, true, 8),
        ] {
            let (mut view, mut picture) = (three_rows(), vec![0x5A; length]);
            let machine = Machine {
                reset,
                ..Machine::power_up()
            };
            let marks = store(&mut view, &mut picture, &machine, address, 0x77);
            assert_eq!(marks, Err(number));
            assert_eq!(picture, vec![0x5A; length]);
            assert_eq!(view.screen, three_rows().screen);
            assert_eq!(view.attribute, three_rows().attribute);
            assert_eq!(view.shared, three_rows().shared);
        }
    }

    /// "a number whose bit r is set exactly when record r changed"
    #[test]
    fn bits_of_marks() {
        let marked = |marks| {
            (0..40)
                .filter(|row| is_marked(marks, *row))
                .collect::<Vec<_>>()
        };
        assert_eq!(marked(0x1FF_FFFE), (1..ROWS).collect::<Vec<_>>());
        assert_eq!(marked(0x8000_0001), [0, 31]);
    }
}
