//! What the program `tube` is given: two sample screens and a sample glyph table, which are kept as texts that a
//! person can read and mend. The head of a text says how it is read.
use crate::chain::{capacity, PLACES, ROWS};
use crate::dots::{address, GLYPHS, SCANS};

const SCREEN: &str = include_str!("../../samples/screen.txt");
const MILKING: &str = include_str!("../../samples/milking.txt");
const TABLE: &str = include_str!("../../samples/glyphs.txt");

/// The file, the line, and what was expected there.
pub type Read<T> = Result<T, String>;

fn expected<T>(file: &str, line: usize, what: &str) -> Read<T> {
    Err(format!("samples/{file}, line {line}: expected {what}"))
}

/// The lines that are read, each with its number.
fn lines(text: &str) -> impl Iterator<Item = (usize, &str)> {
    let numbered = (1..).zip(text.lines());
    numbered.filter(|(_, line)| !line.trim().is_empty() && !line.starts_with(';'))
}

/// The byte of two hex digits.
fn byte(digits: &str) -> Option<u8> {
    let two = digits.len() == 2 && digits.bytes().all(|digit| digit.is_ascii_hexdigit());
    two.then(|| u8::from_str_radix(digits, 16).ok())?
}

/// A heading's code. A printable code is followed by its character, any other by a name.
fn heading(line: &str) -> Option<u8> {
    let (code, name) = line.split_once(' ')?;
    let code = byte(code)?;
    let named = !code.is_ascii_graphic() || name.as_bytes() == [code];
    named.then_some(code)
}

/// The scan byte of eight drawn dots.
fn scan_byte(line: &str) -> Option<u8> {
    let mut byte = 0;
    for dot in line.bytes() {
        byte = byte << 1 | u8::from(dot == b'#');
    }
    let drawn = line.len() == 8 && line.bytes().all(|dot| dot == b'#' || dot == b'.');
    drawn.then_some(byte)
}

/// The glyph table of a text.
pub fn glyph_table(text: &str) -> Read<Vec<u8>> {
    let file = "glyphs.txt";
    let mut table = vec![0; GLYPHS];
    let mut lines = lines(text);
    while let Some((at, line)) = lines.next() {
        let code = match heading(line) {
            Some(code) => code,
            None => return expected(file, at, "a code in two hex digits and its character"),
        };
        for scan in 1..=SCANS {
            let (at, line) = lines.next().unwrap_or((at, ""));
            match scan_byte(line) {
                Some(byte) => table[usize::from(code) * 16 + address(scan)] = byte,
                None => return expected(file, at, &format!("eight dots, # or ., of scan {scan}")),
            }
        }
    }
    Ok(table)
}

struct Row {
    kind: u8,
    cells: Vec<(u8, u8)>,
}

impl Row {
    fn capacity(&self) -> usize {
        capacity(80, self.kind)
    }
}

fn kind(line: &str) -> Option<u8> {
    let (scrolling, name) = match line.strip_prefix("scrolling ") {
        Some(name) => (4, name),
        None => (0, line),
    };
    let names = ["bottom", "top", "wide", "normal"];
    let kind = names.iter().position(|known| *known == name)?;
    Some(scrolling | kind as u8)
}

/// The attribute of the words before the bar. Reverse sets its bit, and the others clear theirs.
fn attribute(words: &str) -> Option<u8> {
    let mut attribute = 0x0E;
    for word in words.split_whitespace() {
        match word {
            "plain" => {}
            "reverse" => attribute |= 1 << 0,
            "bold" => attribute &= !(1 << 1),
            "blink" => attribute &= !(1 << 2),
            "underline" => attribute &= !(1 << 3),
            _ => return None,
        }
    }
    Some(attribute)
}

/// The characters of a run's text. None is FF, for that ends a row.
fn characters(text: &str) -> Option<Vec<u8>> {
    let mut pieces = text.split('\\');
    let mut all = pieces.next()?.as_bytes().to_vec();
    for piece in pieces {
        all.push(byte(piece.get(..2)?)?);
        all.extend(&piece.as_bytes()[2..]);
    }
    (text.is_ascii() && !all.contains(&0xFF)).then_some(all)
}

/// The cells of a run.
fn run(line: &str) -> Option<Vec<(u8, u8)>> {
    let (words, text) = line.trim().strip_suffix('|')?.split_once('|')?;
    let attribute = attribute(words)?;
    let cells = characters(text)?.into_iter();
    Some(cells.map(|character| (character, attribute)).collect())
}

fn rows(file: &str, text: &str) -> Read<Vec<Row>> {
    let mut rows: Vec<Row> = Vec::new();
    for (at, line) in lines(text) {
        if line.starts_with(' ') {
            let row = match rows.last_mut() {
                Some(row) => row,
                None => return expected(file, at, "a row's kind before its runs"),
            };
            match run(line) {
                Some(cells) => row.cells.extend(cells),
                None => return expected(file, at, "attributes and then a text between bars"),
            }
            if row.cells.len() > row.capacity() {
                return expected(file, at, &format!("at most {} cells", row.capacity()));
            }
        } else {
            match kind(line) {
                Some(kind) if kind == 3 || !rows.is_empty() => rows.push(Row {
                    kind,
                    cells: Vec::new(),
                }),
                Some(_) => return expected(file, at, "normal, which row 0 always is"),
                None => return expected(file, at, "normal, wide, top or bottom"),
            }
        }
    }
    match rows.len() {
        ROWS => Ok(rows),
        _ => expected(
            file,
            text.lines().count(),
            &format!("{ROWS} rows by the end"),
        ),
    }
}

/// The screen memory and the attribute memory of a file's text. The rows lie one after another, and the last goes
/// on at place 0.
pub fn memories(file: &str, text: &str) -> Read<Vec<u8>> {
    let rows = rows(file, text)?;
    let (mut screen, mut attribute) = (Vec::new(), Vec::new());
    for (number, row) in rows.iter().enumerate() {
        screen.extend(row.cells.iter().map(|cell| cell.0));
        attribute.extend(row.cells.iter().map(|cell| cell.1));
        let (next, kind) = match rows.get(number + 1) {
            Some(next) => (screen.len() + 3, next.kind),
            None => (0, rows[0].kind),
        };
        screen.extend([0xFF, next as u8, (next >> 8) as u8]);
        attribute.extend([0, kind, 0]);
    }
    screen.resize(PLACES, 0);
    attribute.resize(PLACES, 0);
    Ok([screen, attribute].concat())
}

/// The screen memory, the attribute memory and the glyph table, one after the other, of a herd book's page.
pub fn herd_book() -> Read<Vec<u8>> {
    Ok([memories("screen.txt", SCREEN)?, glyph_table(TABLE)?].concat())
}

/// The same of a page whose table scrolls.
pub fn milking() -> Read<Vec<u8>> {
    Ok([memories("milking.txt", MILKING)?, glyph_table(TABLE)?].concat())
}

#[cfg(test)]
mod tests {
    use super::*;
    use crate::chain::{draw, COUNT_AT, KIND_AT, PAIRS_AT, RECORD};

    #[test]
    fn the_sample_shows_all_attributes_and_kinds() {
        let bytes = herd_book().unwrap();
        assert_eq!(bytes.len(), 2 * PLACES + GLYPHS);
        let drawn = draw(&bytes[..PLACES], &bytes[PLACES..2 * PLACES], 80);
        let picture = drawn.ok().unwrap().picture;
        let records = || picture.chunks(RECORD);
        for kind in [0, 1, 2, 3, 7] {
            assert!(records().any(|record| record[KIND_AT] == kind));
        }
        for attribute in 0..16 {
            let has = |pair: &[u8]| pair[1] == attribute;
            assert!(records().any(|record| record[PAIRS_AT..].chunks(2).any(has)));
        }
        assert!(records().all(|record| record[COUNT_AT] <= 80));
    }

    /// The heading stands still, the cows scroll down to the last row, and all is in the left 40 columns.
    #[test]
    fn the_milking_scrolls_down_to_the_last_row() {
        let bytes = milking().unwrap();
        let drawn = draw(&bytes[..PLACES], &bytes[PLACES..2 * PLACES], 80);
        let picture = drawn.ok().unwrap().picture;
        for (row, record) in picture.chunks(RECORD).enumerate() {
            let kind = record[KIND_AT];
            assert_eq!(kind & 4 != 0, row >= 7, "row {row}");
            assert!(record[COUNT_AT] as usize <= capacity(40, kind));
        }
    }

    #[test]
    fn every_printable_code_is_drawn() {
        let table = glyph_table(TABLE).unwrap();
        for code in 0x21..0x7F {
            let part = &table[code * 16..][..16];
            assert!(part.iter().any(|byte| *byte != 0), "{code:02X}");
            assert!(part.iter().all(|byte| byte & 1 == 0), "{code:02X}");
            assert_eq!(part[9..15], [0; 6]);
        }
    }

    #[test]
    fn a_wrong_text_is_told_by_its_line() {
        let glyph = |text| glyph_table(text).unwrap_err();
        assert_eq!(
            glyph("; a comment\n41 A\n........\n#######\n"),
            "samples/glyphs.txt, line 4: expected eight dots, # or ., of scan 2"
        );
        assert!(glyph("\n41 B\n").contains("line 2: expected a code"));
        let screen = |text| memories("screen.txt", text).unwrap_err();
        assert!(screen("wide\n").contains("line 1: expected normal, which"));
        assert!(screen("normal\n\n  dim|A|\n").contains("line 3: expected attributes"));
        assert!(screen("normal\n  plain|\\FF|\n").contains("line 2: expected attributes"));
        assert!(screen("normal\n").contains("line 1: expected 25 rows"));
        let long = format!("normal\ntop\n  plain|{}|\n", "A".repeat(41));
        assert!(screen(&long).contains("line 3: expected at most 40 cells"));
    }
}
