//! Document 02, ticket 6: why a cell shows what it shows, and the program that says it in two sentences. It is worked
//! out from the places that each row of the walk reads, which document 01 lists: "A row with n cells reads n + 3 bytes
//! of screen memory; a torn one capacity + 1; a dark one none."
use crate::chain::{capacity, read_by_rows, Places, PAIRS, PLACES, ROWS};
use crate::Answer;

/// "given row and column, answer one of"
#[derive(Clone, Copy, Debug, PartialEq, Eq)]
pub enum Why {
    /// "a cell, with the place that holds it and the kind of its row"
    Cell { place: usize, kind: u8, led: Led },
    /// "fill, with the place of the FF that ended the row"
    Fill { place: usize, led: Led },
    /// "past the row's capacity"
    Past { led: Led },
    /// "dark, with the row that tore"
    Dark { tore: usize },
}

/// "and, for all but the dark, the place of the low link byte that led to the row, or that it is row 0"
#[derive(Clone, Copy, Debug, PartialEq, Eq)]
pub enum Led {
    Row0,
    Link(usize),
}

/// A walk of two memories: what each of its rows reads.
#[derive(Clone, Debug, Default)]
pub struct Walk {
    screen: Vec<u8>,
    attribute: Vec<u8>,
    columns: usize,
    rows: Vec<Places>,
}

impl Walk {
    /// "1: a lent buffer's length differs from the list"
    pub fn of(screen: &[u8], attribute: &[u8], columns: usize) -> Answer<Self> {
        Ok(Self {
            rows: read_by_rows(screen, attribute, columns)?,
            screen: screen.to_vec(),
            attribute: attribute.to_vec(),
            columns,
        })
    }

    /// Whether a walk of these memories is this one.
    pub fn is_of(&self, screen: &[u8], attribute: &[u8], columns: usize) -> bool {
        self.columns == columns && self.screen == screen && self.attribute == attribute
    }

    /// The byte that a place of screen memory holds.
    pub fn holds(&self, place: usize) -> u8 {
        self.screen[place]
    }

    /// Whether a row ahead of one reads a place of screen memory: "where no earlier row reads the named cell place".
    pub fn read_ahead_of(&self, row: usize, place: usize) -> bool {
        let mut ahead = self.rows[..row].iter();
        ahead.any(|places| places.screen.contains(&place))
    }

    /// Whether a row after one reads it.
    pub fn read_after(&self, row: usize, place: usize) -> bool {
        let mut after = self.rows[row + 1..].iter();
        after.any(|places| places.screen.contains(&place))
    }

    /// The first place of those that a row reads which holds FF; a torn row has none: "If none of the first capacity +
    /// 1 bytes is FF the row is torn".
    pub fn end(&self, row: usize) -> Option<usize> {
        let places = self.rows[row].screen.iter().copied();
        places.into_iter().find(|place| self.screen[*place] == 0xFF)
    }

    fn is_dark(&self, row: usize) -> bool {
        self.rows[row].screen.is_empty()
    }

    /// "the row that tore": it reads bytes, and none of them is FF.
    fn torn(&self) -> Option<usize> {
        (0..ROWS).find(|row| !self.is_dark(*row) && self.end(*row).is_none())
    }

    /// What a row that is not torn reads last is its link, low byte first.
    fn led(&self, row: usize) -> Led {
        let before = match row.checked_sub(1) {
            Some(before) => &self.rows[before].screen,
            None => return Led::Row0,
        };
        Led::Link(before[before.len() - 2])
    }

    /// "Row 0 .. is of kind 3". "The attribute byte beside the low link byte gives the kind of the row pointed to, its
    /// low three bits".
    pub fn kind(&self, row: usize) -> u8 {
        match self.led(row) {
            Led::Row0 => 3,
            Led::Link(low) => self.attribute[low] % 8,
        }
    }

    fn capacity(&self, row: usize) -> usize {
        capacity(self.columns, self.kind(row))
    }

    /// "Past capacity comes ahead of fill, dark ahead of both." "Refusals: 5 also for a column over 131", and for a row
    /// over 24.
    pub fn why(&self, row: usize, column: usize) -> Answer<Why> {
        if row >= ROWS || column >= PAIRS {
            return Err(5);
        }
        if self.is_dark(row) {
            let tore = self
                .torn()
                .expect("only a torn row is followed by dark ones");
            return Ok(Why::Dark { tore });
        }
        let led = self.led(row);
        if column >= self.capacity(row) {
            return Ok(Why::Past { led });
        }
        // The places that a row reads are those of its cells, in the order of their columns, and then the others.
        let places = &self.rows[row].screen;
        let cells = self
            .end(row)
            .and_then(|end| places.iter().position(|place| *place == end));
        Ok(match cells {
            Some(cells) if cells <= column => Why::Fill {
                place: places[cells],
                led,
            },
            _ => Why::Cell {
                place: places[column],
                kind: self.kind(row),
                led,
            },
        })
    }
}

pub fn explain(
    screen: &[u8],
    attribute: &[u8],
    columns: usize,
    row: usize,
    column: usize,
) -> Answer<Why> {
    Walk::of(screen, attribute, columns)?.why(row, column)
}

/// What the program tells of arguments that are none, and of an input of another length.
pub const WRONG_WORDS: &str =
    "why: wants a row, 0 to 24, a column, 0 to 131, and 132 if the screen has 132 columns\n";
pub const WRONG_LENGTH: &str =
    "why: standard input must be 8192 bytes: screen and attribute memory\n";

/// What the program prints for its arguments and its input, and what it tells on standard error.
pub fn program(words: &[&str], input: &[u8]) -> (String, &'static str) {
    let (row, column, columns) = match asked(words) {
        Some(asked) => asked,
        None => return (String::new(), WRONG_WORDS),
    };
    let (screen, attribute) = input.split_at(input.len().min(PLACES));
    match Walk::of(screen, attribute, columns) {
        Ok(walk) => (walk.sentences(row, column), ""),
        Err(_) => (String::new(), WRONG_LENGTH),
    }
}

/// The row, the column and the column setting that the arguments ask for.
fn asked(words: &[&str]) -> Option<(usize, usize, usize)> {
    let (row, column, columns) = match words {
        [row, column] => (row, column, 80),
        [row, column, "132"] => (row, column, 132),
        _ => return None,
    };
    Some((number(row, ROWS)?, number(column, PAIRS)?, columns))
}

/// A number of one to three decimal digits, under another.
fn number(word: &str, under: usize) -> Option<usize> {
    let digits = (1..=3).contains(&word.len()) && word.bytes().all(|byte| byte.is_ascii_digit());
    let number = word.parse().ok().filter(|_| digits)?;
    (number < under).then_some(number)
}

impl Walk {
    /// The two sentences for a row and a column that are there.
    pub fn sentences(&self, row: usize, column: usize) -> String {
        let why = self
            .why(row, column)
            .expect("a row and a column that are there");
        let (first, last) = match why {
            Why::Cell { place, kind, .. } => {
                let (shown, kind) = (self.shown(place), in_words(kind));
                let held = format!("held at place {place} of screen memory in {kind}");
                (
                    format!("Row {row}, column {column} shows {shown}, {held}."),
                    row,
                )
            }
            Why::Fill { place, .. } => {
                let mark = format!("the row's end mark stands at place {place} of screen memory");
                let filled = format!("Row {row}, column {column} is filled with a blank");
                (format!("{filled}, since {mark}."), row)
            }
            Why::Past { .. } => {
                let (kind, last) = (in_words(self.kind(row)), self.capacity(row) - 1);
                let only = format!("{kind} has columns 0 to {last} only");
                (format!("Row {row} has no column {column}: {only}."), row)
            }
            Why::Dark { tore } => {
                let torn =
                    format!("row {tore} is torn: its end mark is missing or too far on, so no row follows it");
                (
                    format!("Row {row}, column {column} is dark, since {torn}."),
                    tore,
                )
            }
        };
        format!("{first}\n{}\n", self.chain_to(last))
    }

    /// What a cell's place shows. "Attribute: bit 0 set is reverse; bits 1, 2, 3 clear are bold, blink, underline."
    fn shown(&self, place: usize) -> String {
        let mut shown = match self.screen[place] {
            b' ' => "a blank".to_string(),
            character @ b'!'..=b'~' => format!("\"{}\"", char::from(character)),
            number => format!("character number {number}"),
        };
        let attribute = self.attribute[place];
        let ways = [
            (attribute & 2 == 0, "bold"),
            (attribute & 4 == 0, "blinking"),
            (attribute & 8 == 0, "underlined"),
            (attribute & 1 == 1, "in reverse"),
        ];
        for (_, way) in ways.iter().filter(|(is, _)| *is) {
            shown = format!("{shown}, {way}");
        }
        shown
    }

    /// The links from row 0 to a row.
    fn chain_to(&self, row: usize) -> String {
        let step = |to: usize| match self.led(to) {
            Led::Row0 => format!("Row 0 starts at place {}", self.start(to)),
            Led::Link(low) => {
                let start = self.start(to);
                format!("the link at place {low} leads to row {to} at place {start}")
            }
        };
        (0..=row).map(step).collect::<Vec<_>>().join("; ") + "."
    }

    fn start(&self, row: usize) -> usize {
        self.rows[row].screen[0]
    }
}

/// A kind in words. "Bits 1,0 read: 00 bottom half of double height, 01 top half, 10 double width, 11 normal." "bit 2
/// scrolling".
fn in_words(kind: u8) -> String {
    let words = match kind % 4 {
        0 => "the bottom half of a row of double height",
        1 => "the top half of a row of double height",
        2 => "a row of double width",
        _ => "a row of normal width",
    };
    let scrolls = if kind & 4 == 0 { "" } else { " that scrolls" };
    format!("{words}{scrolls}")
}

#[cfg(test)]
mod tests {
    use super::Led::{Link, Row0};
    use super::*;

    /// A memory of one byte but for those laid in it, each run from a place on, over the end too.
    fn memory(byte: u8, laid: &[(usize, &[u8])]) -> Vec<u8> {
        let mut memory = vec![byte; PLACES];
        for (from, bytes) in laid {
            for (place, byte) in (*from..).zip(*bytes) {
                memory[place % PLACES] = *byte;
            }
        }
        memory
    }

    /// A walk at 80 columns.
    fn walk(screen: &[(usize, &[u8])], attribute: &[(usize, &[u8])]) -> Walk {
        walk_at(80, screen, attribute)
    }

    /// A walk of a screen of As with kinds of 3, but for what is laid.
    fn walk_at(columns: usize, screen: &[(usize, &[u8])], attribute: &[(usize, &[u8])]) -> Walk {
        let (screen, attribute) = (memory(b'A', screen), memory(0x03, attribute));
        Walk::of(&screen, &attribute, columns).unwrap()
    }

    fn cell(place: usize, kind: u8, led: Led) -> Answer<Why> {
        Ok(Why::Cell { place, kind, led })
    }

    fn fill(place: usize, led: Led) -> Answer<Why> {
        Ok(Why::Fill { place, led })
    }

    fn past(led: Led) -> Answer<Why> {
        Ok(Why::Past { led })
    }

    fn dark(tore: usize) -> Answer<Why> {
        Ok(Why::Dark { tore })
    }

    /// "a cell, with the place that holds it and the kind of its row; fill, with the place of the FF that ended the
    /// row; past the row's capacity", of row 0, which "starts at place 0 (003) and is of kind 3".
    #[test]
    fn row_0() {
        for columns in [80, 132] {
            let walk = walk_at(columns, &[(5, &[0xFF, 0x00, 0x01])], &[]);
            for column in 0..PAIRS {
                let why = match column {
                    0..=4 => cell(column, 3, Row0),
                    _ if column < columns => fill(5, Row0),
                    _ => past(Row0),
                };
                assert_eq!(walk.why(0, column), why, "{columns}, {column}");
            }
        }
    }

    /// "the place of the low link byte that led to the row": the byte after FF, and not the one after that. The kind is
    /// what the attribute beside it says, and not what is beside FF, beside the high byte, or in the row before.
    #[test]
    fn the_low_link_byte_and_the_kind_beside_it() {
        let screen: [(usize, &[u8]); 2] =
            [(0x50, &[0xFF, 0x50, 0xF1]), (0x150, &[b'B', 0xFF, 0, 2])];
        let attribute: [(usize, &[u8]); 2] = [(0x50, &[0x01, 0xFD, 0x02]), (0x152, &[0xCE])];
        let walk = walk(&screen, &attribute);
        assert_eq!(walk.why(0, 79), cell(79, 3, Row0));
        assert_eq!(walk.why(1, 0), cell(0x150, 5, Link(0x51)));
        assert_eq!(walk.why(1, 1), fill(0x151, Link(0x51)));
        assert_eq!(walk.why(1, 39), fill(0x151, Link(0x51)));
        assert_eq!(walk.why(1, 40), past(Link(0x51)));
        assert_eq!(walk.why(2, 39), cell(0x227, 6, Link(0x152)));
    }

    /// "half of it for the three wide kinds", at both settings.
    #[test]
    fn capacities_of_the_kinds() {
        for columns in [80, 132] {
            for kind in 0..8 {
                let screen: [(usize, &[u8]); 2] = [(0, &[0xFF, 0x00, 0x01]), (0x1FF, &[0xFF])];
                let walk = walk_at(columns, &screen, &[(1, &[kind | 0xA8])]);
                let capacity = if kind % 4 == 3 { columns } else { columns / 2 };
                let last = capacity - 1;
                assert_eq!(walk.why(1, last), cell(0x100 + last, kind, Link(1)));
                let next = if capacity < PAIRS {
                    past(Link(1))
                } else {
                    Err(5)
                };
                assert_eq!(walk.why(1, capacity), next);
            }
        }
    }

    /// FF at the very capacity: the row has all its cells, and nothing of it is fill. "Past capacity comes ahead of
    /// fill": one byte less, and the last column is.
    #[test]
    fn past_is_ahead_of_fill() {
        let full = walk(&[(80, &[0xFF, 0x00, 0x02])], &[]);
        assert_eq!(full.why(0, 79), cell(79, 3, Row0));
        for column in 80..PAIRS {
            assert_eq!(full.why(0, column), past(Row0));
        }
        let less = walk(&[(79, &[0xFF, 0x00, 0x02])], &[]);
        assert_eq!(less.why(0, 78), cell(78, 3, Row0));
        assert_eq!(less.why(0, 79), fill(79, Row0));
        assert_eq!(less.why(0, 80), past(Row0));
        // At 132 columns the same FF fills the rest of the row.
        let wider = walk_at(132, &[(80, &[0xFF, 0x00, 0x02])], &[]);
        assert_eq!(wider.why(0, 131), fill(80, Row0));
    }

    /// "It shows its capacity cells, and all later rows are dark": a torn row has cells up to its capacity, and is past
    /// from there on. "dark, with the row that tore", "dark ahead of both".
    #[test]
    fn torn_and_dark() {
        let screen: [(usize, &[u8]); 2] = [(3, &[0xFF, 0x00, 0x01]), (0x100 + 41, &[0xFF, 0, 0])];
        let walk = walk(&screen, &[(4, &[0x06])]);
        for column in 0..PAIRS {
            let why = match column {
                0..=39 => cell(0x100 + column, 6, Link(4)),
                _ => past(Link(4)),
            };
            assert_eq!(walk.why(1, column), why);
            for row in 2..ROWS {
                assert_eq!(walk.why(row, column), dark(1));
            }
        }
        assert_eq!(walk.why(0, 3), fill(3, Row0));
    }

    /// P2: "row 0 torn, others dark". The row that tore is not the dark one, nor the one before it.
    #[test]
    fn row_0_torn() {
        for columns in [80, 132] {
            let walk = walk_at(columns, &[], &[]);
            assert_eq!(walk.why(0, columns - 1), cell(columns - 1, 3, Row0));
            for row in [1, 2, 23, 24] {
                assert_eq!(walk.why(row, 0), dark(0));
                assert_eq!(walk.why(row, 131), dark(0));
            }
        }
    }

    /// Row 24 torn, which no row follows; and row 23, which row 24 does.
    #[test]
    fn the_last_rows_torn() {
        for torn in [23, 24] {
            let mut screen = memory(b'A', &[]);
            for row in 0..torn {
                let next = 8 * (row + 1) as u8;
                screen[8 * row..][..3].copy_from_slice(&[0xFF, next, 0]);
            }
            let walk = Walk::of(&screen, &memory(3, &[]), 80).unwrap();
            let led = Link(8 * (torn - 1) + 1);
            assert_eq!(walk.why(torn, 79), cell(8 * torn + 79, 3, led));
            assert_eq!(walk.why(torn, 80), past(led));
            let last = if torn == 23 { dark(23) } else { past(led) };
            assert_eq!(walk.why(24, 80), last);
        }
    }

    /// "All places are taken modulo 4,096": cells on both sides of place 4095, FF at 2.
    #[test]
    fn cells_and_ff_past_the_last_place() {
        let screen: [(usize, &[u8]); 2] = [(0, b"XY"), (2, &[0xFF, 0xFE, 0x0F])];
        let walk = walk(&screen, &[(3, &[0x07])]);
        let led = Link(3);
        let row_1 = [4094, 4095, 0, 1];
        for (column, place) in row_1.into_iter().enumerate() {
            assert_eq!(walk.why(1, column), cell(place, 7, led));
        }
        assert_eq!(walk.why(1, 4), fill(2, led));
        assert_eq!(walk.why(24, 79), fill(2, led));
        assert_eq!(walk.why(24, 80), past(led));
    }

    /// FF at 4093, 4094 and 4095: the low byte of the link is at 4094, at 4095, and at 0.
    #[test]
    fn links_at_the_last_places() {
        for (end, low) in [(4093, 4094), (4094, 4095), (4095, 0)] {
            let laid: [(usize, &[u8]); 2] = [(7, &[0xFF, 0xF0, 0x0F]), (end, &[0xFF, 0x20, 0x05])];
            let walk = walk(&laid, &[(low, &[0x02]), (8, &[0x03])]);
            if low == 0 {
                // Row 0 begins with the link's bytes, 20 and 05, and is as long as before.
                assert_eq!(walk.why(0, 1), cell(1, 3, Row0));
            }
            assert_eq!(walk.why(1, 0), cell(4080, 3, Link(8)));
            assert_eq!(walk.why(1, 79), fill(end, Link(8)));
            assert_eq!(walk.why(2, 0), cell(0x520, 2, Link(low)));
            assert_eq!(walk.why(2, 40), past(Link(low)));
            assert_eq!(walk.why(3, 0), dark(2));
        }
    }

    /// P1: "screen all FF": every row but row 0 starts at 4095, and its link's low byte is at 0.
    #[test]
    fn all_ff() {
        let walk = Walk::of(&memory(0xFF, &[]), &memory(0x00, &[]), 80).unwrap();
        assert_eq!(walk.why(0, 0), fill(0, Row0));
        assert_eq!(walk.why(0, 80), past(Row0));
        assert_eq!(walk.why(1, 0), fill(4095, Link(1)));
        for row in 2..ROWS {
            assert_eq!(walk.why(row, 39), fill(4095, Link(0)));
            assert_eq!(walk.why(row, 40), past(Link(0)));
        }
    }

    /// "A chain that loops shows rows again": row 0 by a link is not row 0.
    #[test]
    fn a_loop() {
        let screen: [(usize, &[u8]); 2] = [(1, &[0xFF, 0x00, 0x01]), (0x102, &[0xFF, 0x00, 0x00])];
        let walk = walk(&screen, &[(0x103, &[0x04])]);
        assert_eq!(walk.why(0, 0), cell(0, 3, Row0));
        for row in (1..ROWS).step_by(2) {
            assert_eq!(walk.why(row, 1), cell(0x101, 3, Link(2)));
            assert_eq!(walk.why(row + 1, 0), cell(0, 4, Link(0x103)));
            assert_eq!(walk.why(row + 1, 1), fill(1, Link(0x103)));
        }
    }

    /// P13: "screen FF then 00s, attribute all 03; store 01 at place 2: row 1 torn at 256".
    #[test]
    fn p13() {
        let (mut screen, attribute) = (memory(0x00, &[(0, &[0xFF])]), memory(0x03, &[]));
        let before = Walk::of(&screen, &attribute, 80).unwrap();
        assert_eq!(before.why(0, 0), fill(0, Row0));
        for row in 1..ROWS {
            assert_eq!(before.why(row, 0), fill(0, Link(1)));
        }
        screen[2] = 0x01;
        let after = Walk::of(&screen, &attribute, 80).unwrap();
        assert_eq!(after.why(1, 79), cell(256 + 79, 3, Link(1)));
        assert_eq!(after.why(1, 80), past(Link(1)));
        assert_eq!(after.why(2, 0), dark(1));
    }

    /// "Refusals: 5 also for a column over 131"; "1: a lent buffer's length differs from the list"; "The lowest number
    /// wins."
    #[test]
    fn refusals() {
        let whole = memory(0xFF, &[]);
        let refused = [(25, 0), (0, 132), (25, 132), (usize::MAX, 0), (0, 1 << 32)];
        for columns in [80, 132] {
            for (row, column) in refused {
                assert_eq!(explain(&whole, &whole, columns, row, column), Err(5));
            }
            assert!(explain(&whole, &whole, columns, 24, 131).is_ok());
            for wrong in [0, 4095, 4097] {
                let other = vec![0xFF; wrong];
                for (row, column) in [(0, 0), (25, 0), (0, 132)] {
                    assert_eq!(explain(&other, &whole, columns, row, column), Err(1));
                    assert_eq!(explain(&whole, &other, columns, row, column), Err(1));
                }
            }
        }
    }

    /// Every answer is one that the fresh picture shows: a cell has the byte and the attribute of its place, and fill,
    /// past and dark show 20, 0E.
    #[test]
    fn what_the_picture_shows() {
        use crate::chain::{draw, PAIRS_AT, RECORD};
        use crate::hard::{memories, Chance};
        let mut chance = Chance(0x9E3779B97F4A7C15);
        for _ in 0..50 {
            let memories = memories(&mut chance);
            let (screen, attribute) = memories.split_at(PLACES);
            for columns in [80, 132] {
                let picture = draw(screen, attribute, columns).ok().unwrap().picture;
                let walk = Walk::of(screen, attribute, columns).unwrap();
                for (row, record) in picture.chunks(RECORD).enumerate() {
                    for (column, pair) in record[PAIRS_AT..].chunks(2).enumerate() {
                        let shown = match walk.why(row, column).unwrap() {
                            Why::Cell { place, .. } => [screen[place], attribute[place] % 16],
                            _ => [0x20, 0x0E],
                        };
                        assert_eq!(pair, shown);
                    }
                }
            }
        }
    }

    /// "where no earlier row reads the named cell place, storing there a byte that differs and is not FF changes that
    /// cell". Records of earlier rows stay.
    #[test]
    fn a_store_changes_the_cell() {
        use crate::chain::{draw, PAIRS_AT, RECORD};
        use crate::hard::{memories, Chance};
        let mut chance = Chance(0x9E3779B97F4A7C15);
        let mut tried = 0;
        for _ in 0..2000 {
            let mut memories = memories(&mut chance);
            let (screen, attribute) = memories.split_at_mut(PLACES);
            let walk = Walk::of(screen, attribute, 80).unwrap();
            let (row, column) = (chance.below(ROWS), chance.below(80));
            let place = match walk.why(row, column) {
                Ok(Why::Cell { place, .. }) if !walk.read_ahead_of(row, place) => place,
                _ => continue,
            };
            let before = draw(screen, attribute, 80).ok().unwrap().picture;
            // Any byte but FF and the one that is there.
            let byte = (usize::from(screen[place]) + 1 + chance.below(254)) % 255;
            screen[place] = byte as u8;
            let after = draw(screen, attribute, 80).ok().unwrap().picture;
            let record = row * RECORD;
            assert_eq!(before[..record], after[..record]);
            let cell = record + PAIRS_AT + 2 * column;
            assert!(before[cell] != after[cell] && after[cell] == screen[place]);
            tried += 1;
        }
        assert!(tried > 200, "{tried}");
    }

    const ROW_0: &str = "Row 0 starts at place 0.\n";

    fn said(walk: &Walk, row: usize, column: usize) -> String {
        walk.sentences(row, column)
    }

    #[test]
    fn a_cell_in_words() {
        let walk = walk(
            &[(0, b"A ~\x7F!\"\x00\x1F\xFE\xFF\x00\x02")],
            &[(0, &[0x0E; 9])],
        );
        for (column, shown) in [
            "\"A\"",
            "a blank",
            "\"~\"",
            "character number 127",
            "\"!\"",
            "\"\"\"",
            "character number 0",
            "character number 31",
            "character number 254",
        ]
        .into_iter()
        .enumerate()
        {
            let held = format!("held at place {column} of screen memory in a row of normal width");
            let first = format!("Row 0, column {column} shows {shown}, {held}.\n");
            assert_eq!(said(&walk, 0, column), first + ROW_0);
        }
    }

    #[test]
    fn attributes_in_words() {
        for (attribute, ways) in [
            (0x0E, ""),
            (0xFE, ""),
            (0x0C, ", bold"),
            (0x0A, ", blinking"),
            (0x06, ", underlined"),
            (0x0F, ", in reverse"),
            (0x01, ", bold, blinking, underlined, in reverse"),
            (0xF8, ", bold, blinking"),
        ] {
            let walk = walk(&[(1, &[0xFF])], &[(0, &[attribute])]);
            let begins = format!("Row 0, column 0 shows \"A\"{ways}, held at place 0 of");
            assert!(said(&walk, 0, 0).starts_with(&begins));
        }
    }

    #[test]
    fn kinds_in_words() {
        for (kind, words, last) in [
            (0, "the bottom half of a row of double height", 39),
            (1, "the top half of a row of double height", 39),
            (2, "a row of double width", 39),
            (3, "a row of normal width", 79),
            (
                4,
                "the bottom half of a row of double height that scrolls",
                39,
            ),
            (5, "the top half of a row of double height that scrolls", 39),
            (6, "a row of double width that scrolls", 39),
            (7, "a row of normal width that scrolls", 79),
        ] {
            let screen: [(usize, &[u8]); 2] = [(0, &[0xFF, 0x00, 0x01]), (0x101, &[0xFF])];
            let walk = walk(&screen, &[(1, &[kind]), (0x100, &[0x0E])]);
            let chain =
                "Row 0 starts at place 0; the link at place 1 leads to row 1 at place 256.\n";
            assert_eq!(
                said(&walk, 1, 0),
                format!(
                    "Row 1, column 0 shows \"A\", held at place 256 of screen memory in {words}.\n{chain}"
                )
            );
            assert_eq!(
                said(&walk, 1, last),
                format!(
                    "Row 1, column {last} is filled with a blank, since the row's end mark stands at place 257 of \
                     screen memory.\n{chain}"
                )
            );
            assert_eq!(
                said(&walk, 1, 131),
                format!("Row 1 has no column 131: {words} has columns 0 to {last} only.\n{chain}")
            );
        }
    }

    #[test]
    fn dark_in_words() {
        let screen: [(usize, &[u8]); 2] = [(9, &[0xFF, 0xFD, 0x0F]), (0xFFD, &[0xFF, 0x00, 0x03])];
        let walk = walk_at(132, &screen, &[]);
        assert_eq!(
            said(&walk, 24, 7),
            "Row 24, column 7 is dark, since row 2 is torn: its end mark is missing or too far on, so no row follows \
             it.\n\
             Row 0 starts at place 0; the link at place 10 leads to row 1 at place 4093; the link at place 4094 leads \
             to row 2 at place 768.\n"
        );
        assert_eq!(
            said(&Walk::of(&[0; PLACES], &[0; PLACES], 80).unwrap(), 1, 0),
            format!(
                "Row 1, column 0 is dark, since row 0 is torn: its end mark is missing or too far on, so no row \
                 follows it.\n{ROW_0}"
            )
        );
    }

    #[test]
    fn words_that_the_program_takes() {
        let input = [memory(0xFF, &[]), memory(0x00, &[])].concat();
        let row_0 = |column: usize| {
            let since = "since the row's end mark stands at place 0 of screen memory";
            let first = format!("Row 0, column {column} is filled with a blank, {since}.\n");
            (first + ROW_0, "")
        };
        assert_eq!(program(&["0", "79"], &input), row_0(79));
        assert_eq!(program(&["000", "007"], &input), row_0(7));
        assert_eq!(program(&["0", "131", "132"], &input), row_0(131));
        assert_eq!(program(&["0", "131"], &input).0.lines().count(), 2);
        assert_eq!(program(&["24", "0"], &input).1, "");
        let wrong: [&[&str]; 20] = [
            &[],
            &["0"],
            &["0", "0", "0"],
            &["0", "0", "80"],
            &["0", "0", "132", "132"],
            &["0", "0", "0132"],
            &["132", "0", "0"],
            &["25", "0"],
            &["0", "132"],
            &["0", "132", "132"],
            &["0000", "0"],
            &["0", "0001"],
            &["", "0"],
            &["0", ""],
            &["+1", "0"],
            &["-1", "0"],
            &["1 ", "0"],
            &["0x1", "0"],
            &["A", "0"],
            &["999", "999"],
        ];
        for words in wrong {
            assert_eq!(program(words, &input), (String::new(), WRONG_WORDS));
            assert_eq!(program(words, &[]), (String::new(), WRONG_WORDS));
        }
        for length in [0, 1, 4096, 8191] {
            let short = &input[..length];
            assert_eq!(program(&["0", "0"], short), (String::new(), WRONG_LENGTH));
        }
        let long = [input, vec![0]].concat();
        assert_eq!(program(&["0", "0"], &long), (String::new(), WRONG_LENGTH));
    }
}
