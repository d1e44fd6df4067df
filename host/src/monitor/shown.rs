//! The words of the answers.
use super::lines::{FORMS, NAMES};
use crate::chain::{Drawn, RECORD};
use crate::machine::Machine;
use crate::trial::summed;
use crate::why::{Led, Why};

/// A refused call of a form. "A refusal returns its number, with byte read, marks, read count and all other numbers 0,
/// no row named".
pub fn refused(form: &str, number: u8) -> String {
    let beside = match form.split(" H").next().unwrap_or(form) {
        "read" | "z80 read" | "shadow read DDDDD" => ", byte 00",
        "store" | "index store" | "ask DDDDD" => ", marks 00000000",
        "draw" => ", bytes read 0, no wild row named",
        "why DDDDD DDDDD" => ", as numbers 0 0000 0 0 0 0000",
        _ => "",
    };
    let words = match number {
        1 => "a memory lent at another length than its own",
        2 => "the 8088 sees no memory at this address",
        3 => "the port is none of 04, 0A, 0C, 10C",
        4 => "the port has no such code",
        5 => "no such row, column, scan or place",
        6 => "bits 6 and 7 both rise",
        7 => "the Z80 is held in reset",
        8 => "the 8088 is in reset",
        9 => "the scroll latch is over 9",
        10 => "no such viewer",
        _ => "a refusal that the monitor does not know",
    };
    format!("refused {number}{beside}: {words}")
}

pub fn machine(m: &Machine) -> String {
    let bit = u8::from;
    format!(
        "{} columns, {} Hz, interlace {}, latch {:02X}, blink {}, interrupt {}, reverse {}, watchdog {}, \
         count {}, reset {}, 0A holds {:02X}, z80 runs {}, blanked {}, graphics {}",
        m.columns,
        m.hertz,
        bit(m.interlace),
        m.latch,
        bit(m.blink),
        bit(m.interrupt),
        bit(m.reverse),
        bit(m.watchdog),
        m.count,
        bit(m.reset),
        m.held,
        bit(m.z80_runs()),
        bit(m.blanked()),
        bit(m.graphics()),
    )
}

/// What a drawing answers: the bytes read, and the first row whose link is wild.
pub fn drawn(drawn: &Drawn) -> String {
    let wild = match drawn.wild {
        Some(row) => format!("first wild row: {row}"),
        None => "no wild row named".to_string(),
    };
    format!("drawn, bytes read: {}, {wild}", drawn.reads)
}

/// A word, marks, and each row that is marked.
pub fn marks(word: &str, marks: u32) -> String {
    let rows = (0..u32::BITS).filter(|row| marks >> row & 1 == 1);
    let rows: String = rows.map(|row| format!(" {row}")).collect();
    format!("{word}, marks {marks:08X}{rows}")
}

/// A word and the marks that wait for each viewer, viewer 0 first.
pub fn waiting(word: &str, numbers: &[u32]) -> String {
    let numbers: String = numbers
        .iter()
        .map(|marks| format!(" {marks:08X}"))
        .collect();
    format!("{word}:{numbers}")
}

/// Whether a number has the bit of a row, of those that it has.
pub fn marked(marks: u32, row: usize) -> String {
    let word = match marks.checked_shr(row as u32) {
        Some(bits) if bits & 1 == 1 => "marked",
        _ => "not marked",
    };
    word.to_string()
}

/// Why a cell shows what it shows: places in hexadecimal, all other numbers in decimal. Then the numbers of
/// rainbow_explained: the answer, the place, the kind, the row that tore, and the link with a flag ahead of it; what the
/// answer does not have is 0.
pub fn why(why: &Why) -> String {
    let (said, numbers, led) = match why {
        Why::Cell { place, kind, led } => (
            format!("cell, place {place:04X}, kind {kind}"),
            format!("1 {place:04X} {kind} 0"),
            led,
        ),
        Why::Fill { place, led } => (
            format!("fill, place {place:04X}"),
            format!("2 {place:04X} 0 0"),
            led,
        ),
        Why::Past { led } => ("past".to_string(), "3 0000 0 0".to_string(), led),
        Why::Dark { tore } => {
            return format!("dark, row {tore} tore, as numbers 4 0000 0 {tore} 0 0000")
        }
    };
    match led {
        Led::Row0 => format!("{said}, row 0, as numbers {numbers} 0 0000"),
        Led::Link(low) => format!("{said}, link at {low:04X}, as numbers {numbers} 1 {low:04X}"),
    }
}

/// A word and then bytes.
pub fn bytes(word: &str, bytes: &[u8]) -> String {
    let bytes: String = bytes.iter().map(|byte| format!(" {byte:02X}")).collect();
    format!("{word}{bytes}")
}

pub fn dots(line: &[u8]) -> String {
    let dot = |dot: &u8| match dot {
        0 => '.',
        lit => char::from(b'0' + lit),
    };
    line.iter().map(dot).collect()
}

/// The rows of a list of lines, each with the first and the last scan that show of it.
pub fn lines(list: &[u8]) -> String {
    let mut stretches: Vec<[u8; 3]> = Vec::new();
    for line in list.chunks(2) {
        match stretches.last_mut() {
            Some([row, _, last]) if *row == line[0] => *last = line[1],
            _ => stretches.push([line[0], line[1], line[1]]),
        }
    }
    let shown = |[row, first, last]: &[u8; 3]| format!(" {row}:{first}-{last}");
    format!("lines{}", stretches.iter().map(shown).collect::<String>())
}

pub fn rows(picture: &[u8]) -> Vec<String> {
    let row = |(row, record): (usize, &[u8])| {
        let start = u16::from_be_bytes([record[0], record[1]]);
        let cells = match record[3] {
            254 => return None,
            255 => "torn".to_string(),
            count => format!("cells {count}"),
        };
        let kind = record[2];
        Some(format!("row {row} start {start:04X} kind {kind} {cells}"))
    };
    picture.chunks(RECORD).enumerate().filter_map(row).collect()
}

pub fn text(picture: &[u8], columns: usize) -> Vec<String> {
    let character = |pair: &[u8]| match pair[0] {
        0x20..=0x7E => char::from(pair[0]),
        _ => '.',
    };
    let row = |record: &[u8]| {
        let cells: String = record[4..].chunks(2).take(columns).map(character).collect();
        format!("|{cells}|")
    };
    picture.chunks(RECORD).map(row).collect()
}

pub fn sums<'a>(memories: impl Iterator<Item = &'a [u8]>) -> String {
    let sum =
        |((name, _), bytes): (&(&str, usize), &[u8])| format!(" {name} {:08X}", summed(0, bytes));
    let sums: String = NAMES.iter().zip(memories).map(sum).collect();
    format!("sums:{sums}")
}

pub fn help() -> Vec<String> {
    let names: String = NAMES.iter().map(|(name, _)| format!(" {name}")).collect();
    let last = format!(
        "H is a hexadecimal digit, D a decimal one, and fewer will do; NAME is one of{names}"
    );
    let forms = FORMS.iter().map(|form| format!("  {form}"));
    forms.chain([last]).collect()
}

pub fn expected(forms: &[&str]) -> Vec<String> {
    match forms {
        [] => vec!["expected one of the lines that help shows".to_string()],
        _ => forms
            .iter()
            .map(|form| format!("expected {form}"))
            .collect(),
    }
}
