//! Questions for the program why, beside the one that is stored with it: every answer, kind and attribute, each sort of
//! character, at both settings. The model says what the program must answer.
use super::noticed::Run;
use crate::chain::PLACES;
use crate::sample::herd_book;
use crate::why;
use std::fs;
use std::io;
use std::path::Path;

/// A screen, and the rows and columns that are asked of it.
type Asked = (Vec<u8>, Vec<(usize, usize)>);

/// Row 0 has these characters, and then an A with each attribute.
const CHARACTERS: &[u8] = b"\x00\x1F !\"0A}~\x7F\x80\xFE";

/// Two memories with rows laid in them: their starts, their cells, and the start and the kind of the row after each.
fn laid(rows: &[(usize, &[u8], usize, u8)]) -> (Vec<u8>, Vec<u8>) {
    let (mut screen, mut attribute) = (vec![b'A'; PLACES], vec![0x0E; PLACES]);
    for (start, cells, next, kind) in rows {
        let [low, high] = (*next as u16).to_le_bytes();
        let bytes = cells.iter().copied().chain([0xFF, low, high]);
        for (place, byte) in (*start..).zip(bytes) {
            screen[place % PLACES] = byte;
        }
        attribute[(start + cells.len() + 1) % PLACES] = *kind;
    }
    (screen, attribute)
}

/// Rows 1 to 8 are of the kinds 0 to 7 and have two cells each; row 9 is torn.
fn every_kind() -> Asked {
    let characters = [CHARACTERS, &[b'A'; 16]].concat();
    let start = |row: usize| 100 + 250 * row;
    let mut rows: Vec<(usize, &[u8], usize, u8)> = vec![(0, &characters, start(1), 0)];
    rows.extend((1..=8).map(|row| (start(row), &b"BC"[..], start(row + 1), (row % 8) as u8)));
    let (screen, mut attribute) = laid(&rows);
    for (number, place) in (CHARACTERS.len()..characters.len()).enumerate() {
        attribute[place] = (number * 0x11) as u8;
    }
    let mut asked: Vec<(usize, usize)> = (0..=characters.len()).map(|column| (0, column)).collect();
    asked.extend((0..=9).flat_map(|row| [1, 10, 40, 131].map(|column| (row, column))));
    asked.extend([(10, 0), (11, 131), (24, 0)]);
    ([screen, attribute].concat(), asked)
}

/// Row 1 goes past place 4095 in its middle, and leads to itself.
fn over_the_end() -> Asked {
    let (screen, attribute) = laid(&[(0, b"XY", PLACES - 2, 7)]);
    let asked = vec![(0, 1), (1, 0), (1, 3), (1, 4), (2, 2), (24, 1), (24, 131)];
    ([screen, attribute].concat(), asked)
}

/// Each question as a run of the program, with its screen in a file of the folder.
pub fn runs(folder: &Path) -> io::Result<Vec<Run>> {
    let torn = (
        vec![0; 2 * PLACES],
        vec![(0, 0), (0, 80), (1, 0), (24, 131)],
    );
    let book = (
        herd_book(),
        vec![(1, 9), (5, 3), (20, 0), (24, 11), (24, 99)],
    );
    let short = (vec![0xFF; 2 * PLACES - 1], vec![(0, 0)]);
    let mut runs = Vec::new();
    fs::create_dir_all(folder)?;
    for (number, (screen, asked)) in [every_kind(), over_the_end(), torn, book, short]
        .into_iter()
        .enumerate()
    {
        let input = folder.join(format!("screen{number}"));
        fs::write(&input, &screen)?;
        for (row, column) in asked {
            for setting in [None, Some("132")] {
                let [row, column] = [row, column].map(|number| number.to_string());
                let words = [Some(row.as_str()), Some(column.as_str()), setting];
                let words: Vec<&str> = words.into_iter().flatten().collect();
                let (expected, _) = why::program(&words, &screen);
                runs.push(Run::made("why", &words, &input, expected));
            }
        }
    }
    Ok(runs)
}
