//! Document 01, "The chain of lines" and "The picture": the walk, the records, and the row lister. Document 02, ticket
//! 1: the rows whose links are wild.
use crate::Answer;
use std::cell::RefCell;

pub const PLACES: usize = 4096;
/// 02, ticket 5: "The chain is now walked for 25 rows".
pub const ROWS: usize = 25;
pub const RECORD: usize = 268;
pub const PICTURE: usize = ROWS * RECORD;

/// In a record: the kind, the count, and the pairs of character and attribute.
pub const KIND_AT: usize = 2;
pub const COUNT_AT: usize = 3;
pub const PAIRS_AT: usize = 4;
pub const PAIRS: usize = 132;

/// "Count is the cells before FF, 255 if torn, 254 if dark."
pub const TORN: u8 = 255;
pub const DARK: u8 = 254;

/// The byte that ends a row's cells.
const FF: u8 = 0xFF;

/// The top four bits of a link, which are those of its high byte. "The reading of one row should now also say whether
/// its link had any of those bits set".
const WILD: u8 = 0xF0;

/// How many cells a line of a kind may have. Bits 1 and 0 of the kind say whether it is normal or wide.
pub fn capacity(columns: usize, kind: u8) -> usize {
    match kind & 3 {
        3 => columns,
        _ => columns / 2,
    }
}

/// A memory of a walk, which lists the places that are read of it.
struct Watched<'a> {
    bytes: &'a [u8],
    places: RefCell<Vec<usize>>,
}

impl<'a> Watched<'a> {
    fn new(bytes: &'a [u8]) -> Self {
        Self {
            bytes,
            places: RefCell::default(),
        }
    }

    fn read(&self, place: usize) -> u8 {
        let place = place % PLACES;
        self.places.borrow_mut().push(place);
        self.bytes[place]
    }
}

/// The places that a row reads of the two memories.
#[derive(Clone, Debug, Default)]
pub struct Places {
    pub screen: Vec<usize>,
    pub attribute: Vec<usize>,
}

/// A row as it is shown: what its record says, the cells, whether its link is wild, and what it reads.
struct Row {
    start: usize,
    kind: u8,
    count: u8,
    cells: Vec<(u8, u8)>,
    wild: bool,
    places: Places,
}

impl Row {
    fn dark() -> Self {
        Self {
            start: 0,
            kind: 3,
            count: DARK,
            cells: Vec::new(),
            wild: false,
            places: Places::default(),
        }
    }

    fn record(&self) -> Vec<u8> {
        let mut bytes = vec![
            (self.start >> 8) as u8,
            self.start as u8,
            self.kind,
            self.count,
        ];
        let fill = std::iter::repeat((0x20, 0x0E));
        for (character, attribute) in self.cells.iter().copied().chain(fill).take(PAIRS) {
            bytes.extend([character, attribute & 15]);
        }
        bytes
    }
}

/// The row at a start, and where the chain goes on unless the row is torn.
fn row(
    screen: &[u8],
    attribute: &[u8],
    columns: usize,
    (start, kind): (usize, u8),
) -> (Row, Option<(usize, u8)>) {
    let (screen, attribute) = (Watched::new(screen), Watched::new(attribute));
    let capacity = capacity(columns, kind);
    let mut cells = Vec::new();
    let mut place = start;
    let (count, wild, next) = loop {
        let character = screen.read(place);
        if character == FF {
            let low = screen.read(place + 1);
            let high = screen.read(place + 2);
            let next = usize::from(u16::from_le_bytes([low, high & !WILD]));
            let kind = attribute.read(place + 1) & 7;
            break (cells.len() as u8, high & WILD != 0, Some((next, kind)));
        }
        if cells.len() == capacity {
            break (TORN, false, None);
        }
        cells.push((character, attribute.read(place)));
        place += 1;
    };
    let shown = Row {
        start,
        kind,
        count,
        cells,
        wild,
        places: Places {
            screen: screen.places.take(),
            attribute: attribute.places.take(),
        },
    };
    (shown, next)
}

/// The rows of the walk of two memories.
fn rows(screen: &[u8], attribute: &[u8], columns: usize) -> Answer<Vec<Row>> {
    if screen.len() != PLACES || attribute.len() != PLACES {
        return Err(1);
    }
    let mut ahead = Some((0, 3));
    let mut step = || match ahead {
        Some(head) => {
            let (shown, next) = row(screen, attribute, columns, head);
            ahead = next;
            shown
        }
        None => Row::dark(),
    };
    Ok((0..ROWS).map(|_| step()).collect())
}

/// The places that each row reads.
pub fn read_by_rows(screen: &[u8], attribute: &[u8], columns: usize) -> Answer<Vec<Places>> {
    let rows = rows(screen, attribute, columns)?.into_iter();
    Ok(rows.map(|row| row.places).collect())
}

/// The rows whose links are wild.
pub fn wild_rows(screen: &[u8], attribute: &[u8], columns: usize) -> Answer<Vec<usize>> {
    let rows = rows(screen, attribute, columns)?;
    Ok((0..ROWS).filter(|row| rows[*row].wild).collect())
}

/// What a drawing gives: the bytes of screen memory that it read, the picture, and the first row whose link is wild.
pub struct Drawn {
    pub reads: usize,
    pub picture: Vec<u8>,
    pub wild: Option<usize>,
}

pub fn draw(screen: &[u8], attribute: &[u8], columns: usize) -> Answer<Drawn> {
    let rows = rows(screen, attribute, columns)?;
    Ok(Drawn {
        reads: rows.iter().map(|row| row.places.screen.len()).sum(),
        picture: rows.iter().flat_map(Row::record).collect(),
        wild: rows.iter().position(|row| row.wild),
    })
}

/// What is drawn of the row lister's input.
fn drawn_input(input: &[u8]) -> Answer<Drawn> {
    let (screen, attribute) = input.split_at(input.len().min(PLACES));
    draw(screen, attribute, 80)
}

/// What the row lister tells on standard error for an input.
pub fn listing_told(input: &[u8]) -> String {
    match drawn_input(input) {
        Ok(Drawn {
            wild: Some(row), ..
        }) => format!("rows: the link of row {row} is wild\n"),
        _ => String::new(),
    }
}

/// What the row lister prints for an input.
pub fn listing(input: &[u8]) -> String {
    match drawn_input(input) {
        Err(number) => format!("refused {number}\n"),
        Ok(drawn) => {
            let mut text = format!("columns 80 reads {}\n", drawn.reads);
            for (row, record) in drawn.picture.chunks(RECORD).enumerate() {
                let start = u16::from_be_bytes([record[0], record[1]]);
                let count = match record[COUNT_AT] {
                    DARK => continue,
                    TORN => "torn".to_string(),
                    count => count.to_string(),
                };
                text += &format!("{row} {start:04X} {} {count}\n", record[KIND_AT]);
            }
            text
        }
    }
}

#[cfg(test)]
mod tests {
    use super::*;

    /// A memory of one byte but for those laid in it, each run from a place on.
    fn memory(byte: u8, laid: &[(usize, &[u8])]) -> Vec<u8> {
        let mut memory = vec![byte; PLACES];
        for (place, bytes) in laid {
            memory[*place..][..bytes.len()].copy_from_slice(bytes);
        }
        memory
    }

    fn drawn(screen: &[u8], attribute: &[u8], columns: usize) -> Drawn {
        draw(screen, attribute, columns).ok().unwrap()
    }

    fn record(drawn: &Drawn, row: usize) -> &[u8] {
        &drawn.picture[row * RECORD..][..RECORD]
    }

    /// A record's start, kind and count.
    fn head(drawn: &Drawn, row: usize) -> (usize, u8, u8) {
        let record = record(drawn, row);
        let start = usize::from(record[0]) * 256 + usize::from(record[1]);
        (start, record[KIND_AT], record[COUNT_AT])
    }

    /// "screen all FF, attribute all 00, 80 columns: row 0: start 0, kind 3, count 0", all others "start 4095, kind 0,
    /// count 0". "Stopping at place 4095: P1 needs the wrap." 02, ticket 5: "P1, P2 and P13 gain a row, and P1 reads 75".
    #[test]
    fn p1_all_ff() {
        let drawn = drawn(&memory(0xFF, &[]), &memory(0x00, &[]), 80);
        assert_eq!(head(&drawn, 0), (0, 3, 0));
        for row in 1..ROWS {
            assert_eq!(head(&drawn, row), (4095, 0, 0));
        }
        assert_eq!(drawn.reads, 75);
    }

    /// "both all 00, 80 columns: row 0 torn, others dark; 81 read". "It shows its capacity cells, and all later rows
    /// are dark." "A dark row has start 0, kind 3 and only such pairs", which are 20, 0E.
    #[test]
    fn p2_all_00() {
        let drawn = drawn(&memory(0x00, &[]), &memory(0x00, &[]), 80);
        assert_eq!(head(&drawn, 0), (0, 3, 255));
        assert_eq!(record(&drawn, 0)[PAIRS_AT..][..160], [0; 160]);
        assert_eq!(record(&drawn, 0)[PAIRS_AT + 160..], [0x20, 0x0E].repeat(52));
        for row in 1..ROWS {
            assert_eq!(record(&drawn, row)[..PAIRS_AT], [0, 0, 3, 254]);
            assert_eq!(record(&drawn, row)[PAIRS_AT..], [0x20, 0x0E].repeat(132));
        }
        assert_eq!(drawn.reads, 81);
    }

    /// "FF 50 01: next start 336". "Taking the link high byte first: P3 would give place 1."
    #[test]
    fn p3_low_byte_first() {
        let screen = memory(0x00, &[(0, &[0xFF, 0x50, 0x01])]);
        assert_eq!(head(&drawn(&screen, &memory(3, &[]), 80), 1).0, 336);
    }

    /// "FF 50 F1: next start 336". "the high byte's top four bits play no part"
    #[test]
    fn p4_top_four_bits() {
        let screen = memory(0x00, &[(0, &[0xFF, 0x50, 0xF1])]);
        assert_eq!(head(&drawn(&screen, &memory(3, &[]), 80), 1).0, 336);
    }

    /// "normal, 80: first FF 80 or 81 bytes after the start: count 80; torn"
    #[test]
    fn p5_normal_capacity() {
        for (after, count) in [(79, 79), (80, 80), (81, 255)] {
            let screen = memory(0x41, &[(after, &[0xFF, 0x00, 0x00])]);
            assert_eq!(head(&drawn(&screen, &memory(3, &[]), 80), 0), (0, 3, count));
        }
    }

    /// "double width, 80: FF 40 or 41 after: count 40; torn"
    #[test]
    fn p6_wide_capacity() {
        for (after, count) in [(39, 39), (40, 40), (41, 255)] {
            let laid: [(usize, &[u8]); 2] = [(0, &[0xFF, 0x00, 0x01]), (256 + after, &[0xFF])];
            let drawn = drawn(&memory(0x41, &laid), &memory(2, &[]), 80);
            assert_eq!(head(&drawn, 1), (256, 2, count));
        }
    }

    /// "The capacity of a line is the column setting, 80 or 132, and half of it for the three wide kinds." "Bits 1,0
    /// read: 00 bottom half of double height, 01 top half, 10 double width, 11 normal."
    #[test]
    fn capacities() {
        let of = |columns| -> Vec<usize> { (0..8).map(|kind| capacity(columns, kind)).collect() };
        assert_eq!(of(80), [40, 40, 40, 80, 40, 40, 40, 80]);
        assert_eq!(of(132), [66, 66, 66, 132, 66, 66, 66, 132]);
    }

    /// "The attribute byte beside the low link byte gives the kind of the row pointed to, its low three bits".
    /// "Giving a line's kind to the row that carries it, not the one pointed to."
    #[test]
    fn kind_of_the_row_pointed_to() {
        let screen = memory(0x00, &[(0, &[0xFF, 0x00, 0x01])]);
        let attribute = memory(0x00, &[(0, &[0x01, 0xFD, 0x02])]);
        let drawn = drawn(&screen, &attribute, 80);
        assert_eq!(head(&drawn, 0).1, 3);
        assert_eq!(head(&drawn, 1).1, 5);
    }

    /// "A chain that loops shows rows again." 02, ticket 5: "The chain is now walked for 25 rows", "the picture has
    /// 6,700 bytes".
    #[test]
    fn a_loop_shows_rows_again() {
        let laid: [(usize, &[u8]); 2] = [
            (0, &[0x41, 0xFF, 0x00, 0x01]),
            (256, &[0x42, 0x43, 0xFF, 0x00, 0x00]),
        ];
        let drawn = drawn(&memory(0x00, &laid), &memory(3, &[]), 80);
        assert_eq!(drawn.picture.len(), 6700);
        for row in 0..ROWS {
            let shown = if row % 2 == 0 { (0, 3, 1) } else { (256, 3, 2) };
            assert_eq!(head(&drawn, row), shown);
        }
    }

    /// "all places are taken modulo 4,096": cells at 4094 and 4095, FF at 0, the link at 1 and 2.
    #[test]
    fn cells_go_on_at_place_0() {
        let laid: [(usize, &[u8]); 2] = [(0, &[0xFF, 0xFE, 0x0F]), (4094, &[0x41, 0x42])];
        let drawn = drawn(&memory(0x00, &laid), &memory(3, &[]), 80);
        assert_eq!(head(&drawn, 0), (0, 3, 0));
        assert_eq!(head(&drawn, 1), (4094, 3, 2));
        assert_eq!(record(&drawn, 1)[PAIRS_AT..][..4], [0x41, 3, 0x42, 3]);
        assert_eq!(head(&drawn, 2), (4094, 3, 2));
    }

    /// "start (two bytes, high byte first, the house habit), kind 0 to 7, count, then 132 pairs of character and
    /// attribute modulo 16." "Pairs after the last cell are 20, 0E."
    #[test]
    fn a_record() {
        let screen = memory(
            0x00,
            &[(0, &[0xFF, 0x50, 0x01]), (336, &[0x41, 0x42, 0xFF])],
        );
        let attribute = memory(0x07, &[(336, &[0x1A, 0xFB])]);
        let drawn = drawn(&screen, &attribute, 80);
        let begins = [0x01, 0x50, 7, 2, 0x41, 0x0A, 0x42, 0x0B, 0x20, 0x0E];
        assert_eq!(record(&drawn, 1)[..10], begins);
        assert_eq!(record(&drawn, 1)[8..], [0x20, 0x0E].repeat(130));
    }

    /// "A row with n cells reads n + 3 bytes of screen memory; a torn one capacity + 1; a dark one none."
    #[test]
    fn bytes_read() {
        let screen = memory(0x00, &[(5, &[0xFF, 0x00, 0x01])]);
        assert_eq!(drawn(&screen, &memory(3, &[]), 132).reads, 5 + 3 + 133);
        assert_eq!(drawn(&screen, &memory(2, &[]), 132).reads, 5 + 3 + 67);
    }

    /// "at most", at 132 columns and at 80: rows of as many cells as may be. 02, ticket 5: "the read bounds are 3,375
    /// and 2,075".
    #[test]
    fn most_bytes_read() {
        for (columns, most) in [(132, 3375), (80, 2075)] {
            let screen = memory(0x41, &[(columns, &[0xFF, 0x00, 0x00])]);
            assert_eq!(drawn(&screen, &memory(3, &[]), columns).reads, most);
        }
    }

    /// "A row also reads the attribute byte beside each of its cells and, unless torn, the one beside its low link
    /// byte."
    #[test]
    fn places_read() {
        let screen = memory(0x00, &[(2, &[0xFF, 0x00, 0x01])]);
        let rows = read_by_rows(&screen, &memory(3, &[]), 80).ok().unwrap();
        assert_eq!(rows[0].screen, [0, 1, 2, 3, 4]);
        assert_eq!(rows[0].attribute, [0, 1, 3]);
        let torn: Vec<usize> = (256..=336).collect();
        assert_eq!(rows[1].screen, torn);
        assert_eq!(rows[1].attribute, torn[..80]);
        assert!(rows[2].screen.is_empty() && rows[2].attribute.is_empty());
    }

    /// "1: a lent buffer's length differs from the list"
    #[test]
    fn other_lengths_are_refused() {
        for (screen, attribute) in [(0, 4096), (4095, 4096), (4096, 4097), (4096, 0)] {
            let (screen, attribute) = (vec![0; screen], vec![0; attribute]);
            assert_eq!(draw(&screen, &attribute, 80).err(), Some(1));
            assert_eq!(read_by_rows(&screen, &attribute, 80).err(), Some(1));
            assert_eq!(wild_rows(&screen, &attribute, 80), Err(1));
        }
    }

    /// The rows whose links are wild, of which a drawing names the first.
    fn wild(screen: &[u8], attribute: &[u8], columns: usize) -> Vec<usize> {
        let wild = wild_rows(screen, attribute, columns).unwrap();
        let drawn = drawn(screen, attribute, columns);
        assert_eq!(drawn.wild, wild.first().copied());
        wild
    }

    /// Rows of no cells, each eight places after the one before. The link of each has these bits in its high byte.
    fn links(high: impl Fn(usize) -> u8) -> Vec<u8> {
        let mut screen = memory(0x41, &[]);
        for row in 0..ROWS + 2 {
            let next = 8 * (row as u16 + 1);
            let [low, top] = next.to_le_bytes();
            screen[8 * row..][..3].copy_from_slice(&[FF, low, top | high(row)]);
        }
        screen
    }

    /// "whether its link had any of those bits set": each of the top four bits of the high byte by itself, and all.
    #[test]
    fn each_top_bit_makes_a_link_wild() {
        for bits in [0x10, 0x20, 0x40, 0x80, 0xF0] {
            for row in 0..ROWS {
                let screen = links(|other| if other == row { bits } else { 0 });
                assert_eq!(wild(&screen, &memory(3, &[]), 80), [row]);
            }
        }
    }

    /// "A dealer's patched herd book leaves rubbish in the top four bits of some links." The other twelve say where the
    /// next row starts, and no bit of them makes a link wild.
    #[test]
    fn the_other_bits_do_not() {
        for link in [
            [0x00, 0x00],
            [0x00, 0x08],
            [0x00, 0x0F],
            [0xFF, 0x00],
            [0xFF, 0x0F],
        ] {
            let screen = memory(0x41, &[(0, &[FF]), (1, &link)]);
            let next = usize::from(u16::from_le_bytes(link));
            let drawn = drawn(&screen, &memory(3, &[]), 80);
            assert_eq!((head(&drawn, 1).0, drawn.wild), (next, None));
        }
        assert_eq!(wild(&links(|_| 0), &memory(3, &[]), 80), []);
    }

    /// "each drawing should name the first such row, or none"
    #[test]
    fn the_first_wild_row_is_named() {
        let three = links(|row| if [5, 6, 20].contains(&row) { 0x70 } else { 0 });
        assert_eq!(wild(&three, &memory(3, &[]), 80), [5, 6, 20]);
        assert_eq!(drawn(&three, &memory(3, &[]), 80).wild, Some(5));
        assert_eq!(wild(&memory(FF, &[]), &memory(0, &[]), 80).len(), ROWS);
        assert_eq!(drawn(&memory(0, &[]), &memory(0, &[]), 80).wild, None);
    }

    /// "each drawing should name the first such row": the last row's link counts, that of a row after it does not.
    #[test]
    fn the_last_row_counts() {
        let last = ROWS - 1;
        for (row, named) in [
            (last - 1, Some(last - 1)),
            (last, Some(last)),
            (last + 1, None),
        ] {
            let screen = links(|other| if other == row { 0x10 } else { 0 });
            assert_eq!(drawn(&screen, &memory(3, &[]), 80).wild, named);
        }
    }

    /// "A torn or dark row has no link.": FF 81 bytes after the start, or none, and bytes that are wild as a link.
    #[test]
    fn a_torn_row_has_no_link() {
        for (after, wild_row) in [(80, Some(0)), (81, None)] {
            let screen = memory(0xF1, &[(after, &[FF, 0xF1, 0xF1])]);
            assert_eq!(drawn(&screen, &memory(3, &[]), 80).wild, wild_row);
        }
        assert_eq!(wild(&memory(0xF1, &[]), &memory(3, &[]), 80), []);
    }

    /// "A torn or dark row has no link.": row 1 is torn and the others dark, though place 0 has a link.
    #[test]
    fn a_dark_row_has_no_link() {
        for (high, rows) in [(0x01, vec![]), (0xF1, vec![0])] {
            let screen = memory(0xF1, &[(0, &[FF, 0x00, high])]);
            let drawn = drawn(&screen, &memory(3, &[]), 80);
            assert_eq!((head(&drawn, 1).2, head(&drawn, 2).2), (TORN, DARK));
            assert_eq!(wild(&screen, &memory(3, &[]), 80), rows);
        }
    }

    /// "A chain that loops shows rows again.": the first of the rows that are the same is named.
    #[test]
    fn in_a_loop_the_first_is_named() {
        let laid: [(usize, &[u8]); 3] = [
            (0, &[FF, 0x00, 0x01]),
            (256, &[0x41, FF, 0x00, 0x02]),
            (512, &[FF, 0x00, 0x81]),
        ];
        let even: Vec<usize> = (2..ROWS).step_by(2).collect();
        assert_eq!(wild(&memory(0, &laid), &memory(3, &[]), 80), even);
        let itself = memory(0, &[(0, &[0x41, FF, 0x00, 0x40])]);
        assert_eq!(wild(&itself, &memory(3, &[]), 80).len(), ROWS);
    }

    /// "If none of the first capacity + 1 bytes is FF the row is torn": at the edges of each kind, at 80 and at 132
    /// columns, a row that is not has its link read.
    #[test]
    fn at_each_capacity() {
        for (columns, kind) in [80, 132]
            .into_iter()
            .flat_map(|c| (0..8).map(move |k| (c, k)))
        {
            let most = capacity(columns, kind);
            for (cells, rows) in [(0, vec![1]), (most, vec![1]), (most + 1, vec![])] {
                let laid: [(usize, &[u8]); 2] =
                    [(0, &[FF, 0x00, 0x01]), (256 + cells, &[FF, 0x00, 0x28])];
                let screen = memory(0x41, &laid);
                let attribute = memory(3, &[(1, &[kind])]);
                assert_eq!(wild(&screen, &attribute, columns), rows, "{kind} {cells}");
            }
        }
    }

    /// "all places are taken modulo 4,096": FF at the last three places, so that the high byte is at 4095, 0 and 1.
    #[test]
    fn a_link_past_the_last_place() {
        for (end, high_at) in [(4093, 4095), (4094, 0), (4095, 1)] {
            for (high, rows) in [(0x0C, vec![]), (0x2C, vec![1])] {
                let laid: [(usize, &[u8]); 2] = [(2, &[FF, 0xF0, 0x0F]), (end, &[FF])];
                let mut screen = memory(0x41, &laid);
                screen[high_at] = high;
                assert_eq!(wild(&screen, &memory(3, &[]), 80), rows, "{end}");
            }
        }
    }

    /// "Rows, marks and read counts stay."
    #[test]
    fn rows_and_read_counts_stay() {
        for columns in [80, 132] {
            let wild = drawn(&links(|row| (row as u8) << 4), &memory(3, &[]), columns);
            let tame = drawn(&links(|_| 0), &memory(3, &[]), columns);
            assert_eq!(
                (wild.reads, wild.picture == tame.picture),
                (tame.reads, true)
            );
            assert_eq!((wild.wild, tame.wild), (Some(1), None));
        }
    }

    /// The lister names the row on standard error, and prints what it always did.
    #[test]
    fn lister_of_a_wild_link() {
        let attribute = memory(3, &[]);
        let input = [links(|row| (row as u8) << 4), attribute.clone()].concat();
        let tame = [links(|_| 0), attribute].concat();
        assert_eq!(listing(&input), listing(&tame));
        assert_eq!(listing_told(&input), "rows: the link of row 1 is wild\n");
        assert_eq!(listing_told(&tame), "");
        for length in [0, 4096, 8191] {
            assert_eq!(listing_told(&input[..length]), "");
        }
        assert_eq!(listing_told(&[input, vec![0]].concat()), "");
    }

    /// "For 8,192 zero bytes it prints, whole:" two lines. "Input of another length prints `refused 1`."
    #[test]
    fn lister_of_zero_bytes() {
        assert_eq!(listing(&[0; 8192]), "columns 80 reads 81\n0 0000 3 torn\n");
        for length in [0, 4096, 8191, 8193] {
            assert_eq!(listing(&vec![0; length]), "refused 1\n");
        }
    }

    /// "Other rows print alike (row, start in four capital hex digits, kind, count in decimal), dark ones not at all."
    #[test]
    fn lister_of_rows() {
        let screen = memory(
            0x41,
            &[(10, &[0xFF, 0xBC, 0x0A]), (0xABC, &[0xFF, 0x00, 0x0C])],
        );
        let attribute = memory(0x06, &[]);
        assert_eq!(
            listing(&[screen, attribute].concat()),
            "columns 80 reads 57\n0 0000 3 10\n1 0ABC 6 0\n2 0C00 6 torn\n"
        );
    }
}
