//! What a line says: docs/MONITOR.md's table of forms, and the words and digits of a line.
use crate::chain::PICTURE;
use crate::dots::{GLYPHS, LINE};
use crate::index::INDEX;
use crate::memories::{ATTRIBUTE, NVM, PRIVATE, SCREEN, SHADOW, SHARED};
use crate::screen::LIST;

/// The forms, in the order that `help` has.
pub const FORMS: [&str; 37] = [
    "store HHHHHHHH HH",
    "blind HHHHHHHH HH",
    "read HHHHHHHH",
    "z80 store HHHH HH",
    "z80 read HHHH",
    "port HHHH HH",
    "tick",
    "watch DDDDD",
    "shadow write DDDDD HH",
    "shadow read DDDDD",
    "draw",
    "index",
    "index store HHHHHHHH HH",
    "ask DDDDD",
    "marked HHHHHHHH DDDDD",
    "why DDDDD DDDDD",
    "line DDDDD DDDDD",
    "lines",
    "glyph HH",
    "dots",
    "scroll",
    "power",
    "machine",
    "latch HH",
    "count DDD D",
    "viewers",
    "wait DDDDD HHHHHHHH",
    "rows",
    "text",
    "list DDDDD",
    "sums",
    "help",
    "lend NAME DDDDD",
    "fill NAME HH",
    "put NAME DDDDD HH",
    "bytes NAME DDDDD DDDDD",
    "strew NAME DDDDD DDDDD DDDDD",
];

/// The memories with their lengths by documents 01 and 02, in the order of their names.
pub const NAMES: [(&str, usize); 11] = [
    ("shared", SHARED),
    ("private", PRIVATE),
    ("screen", SCREEN),
    ("attribute", ATTRIBUTE),
    ("glyphs", GLYPHS),
    ("nvm", NVM),
    ("shadow", SHADOW),
    ("picture", PICTURE),
    ("line", LINE),
    ("lines", LIST),
    ("index", INDEX),
];

pub const LONGEST: usize = 200;

#[derive(Debug, PartialEq, Eq)]
pub enum Line<'a> {
    Blank,
    Remark(&'a [u8]),
    /// A form, and the numbers that stand for its NAMEs, Hs and Ds.
    Call(&'static str, Vec<u32>),
    /// The forms that begin with the same word.
    Bad(Vec<&'static str>),
    TooLong,
}

pub fn understood(line: &[u8]) -> Line<'_> {
    if line.len() > LONGEST {
        return Line::TooLong;
    }
    if line.starts_with(b"#") {
        return Line::Remark(line);
    }
    let words: Vec<_> = line
        .split(|byte| b" \t\r".contains(byte))
        .filter(|word| !word.is_empty())
        .collect();
    let first = match words.first() {
        Some(first) => *first,
        None => return Line::Blank,
    };
    let call = |form: &&'static str| fits(form, &words).map(|numbers| Line::Call(form, numbers));
    match FORMS.iter().find_map(call) {
        Some(call) => call,
        None => {
            let alike = |form: &&str| form.split(' ').next().map(str::as_bytes) == Some(first);
            Line::Bad(FORMS.into_iter().filter(alike).collect())
        }
    }
}

/// The numbers of a line that has a form.
fn fits(form: &str, words: &[&[u8]]) -> Option<Vec<u32>> {
    let parts: Vec<_> = form.split(' ').collect();
    if parts.len() != words.len() {
        return None;
    }
    let mut numbers = Vec::new();
    for (part, word) in parts.into_iter().zip(words) {
        match part.as_bytes()[0] {
            b'N' => numbers.push(named(word)?),
            b'H' => numbers.push(number(word, part.len(), 16)?),
            b'D' => numbers.push(number(word, part.len(), 10)?),
            _ if part.as_bytes() == *word => {}
            _ => return None,
        }
    }
    Some(numbers)
}

/// Which memory has a name.
fn named(word: &[u8]) -> Option<u32> {
    let found = NAMES.iter().position(|(name, _)| name.as_bytes() == word);
    found.map(|at| at as u32)
}

fn number(word: &[u8], most: usize, base: u32) -> Option<u32> {
    if word.len() > most {
        return None;
    }
    word.iter().try_fold(0u32, |sum, byte| {
        let digit = char::from(*byte).to_digit(base)?;
        Some(sum.wrapping_mul(base).wrapping_add(digit))
    })
}

#[cfg(test)]
mod tests {
    use super::*;

    fn call(line: &str) -> Option<Vec<u32>> {
        match understood(line.as_bytes()) {
            Line::Call(_, numbers) => Some(numbers),
            _ => None,
        }
    }

    #[test]
    fn digits() {
        assert_eq!(call("store FFFFFFFF fF"), Some(vec![u32::MAX, 0xFF]));
        assert_eq!(call("store 0 0"), Some(vec![0, 0]));
        assert_eq!(call("z80 read 07fF"), Some(vec![0x7FF]));
        assert_eq!(call("shadow read 99999"), Some(vec![99999]));
        assert_eq!(call("shadow read 00001"), Some(vec![1]));
        assert_eq!(call("why 24 131"), Some(vec![24, 131]));
        assert_eq!(call("why 00000 99999"), Some(vec![0, 99999]));
        assert_eq!(call("watch 128"), Some(vec![128]));
        assert_eq!(call("watch 99999"), Some(vec![99999]));
        assert_eq!(call("ask 7"), Some(vec![7]));
        assert_eq!(call("ask 99999"), Some(vec![99999]));
        assert_eq!(call("wait 00007 fFfFfFfF"), Some(vec![7, u32::MAX]));
        assert_eq!(call("viewers"), Some(vec![]));
        assert_eq!(call("index"), Some(vec![]));
        assert_eq!(call("index store fFfFfFfF 0"), Some(vec![u32::MAX, 0]));
        for bad in [
            "store 000000000 0",
            "store 0 000",
            "store 0G 0",
            "read +1",
            "read -1",
            "read 0x1",
            "z80 read 10000",
            "shadow read 100000",
            "shadow read 000001",
            "shadow read 1A",
            "watch 100000",
            "watch 7F",
            "why 1A 0",
            "why 0 100000",
            "why 0",
            "why 0 0 132",
            "ask",
            "ask 1A",
            "ask 100000",
            "ask 0 0",
            "wait 0",
            "wait 100000 0",
            "wait 0 100000000",
            "viewers 0",
            "index 0",
            "index store",
            "index store 0",
            "index store 0 000",
            "index store 000000000 0",
            "index 0 0",
            "glyph 041",
        ] {
            assert_eq!(call(bad), None, "{bad}");
        }
    }

    #[test]
    fn names_stand_for_memories() {
        for (at, (name, _)) in NAMES.iter().enumerate() {
            let line = format!("put {name} 7 1F");
            assert_eq!(call(&line), Some(vec![at as u32, 7, 0x1F]));
        }
        for bad in [
            "put Shared 7 1F",
            "put share 7 1F",
            "put shareds 7 1F",
            "put lin 7 1F",
            "put liness 7 1F",
            "put indexes 7 1F",
        ] {
            assert_eq!(call(bad), None);
        }
    }

    #[test]
    fn words_are_parted() {
        assert_eq!(call("\t read \t1\r"), Some(vec![1]));
        assert_eq!(call("read\r1\t\r "), Some(vec![1]));
        assert_eq!(call("read1"), None);
        assert_eq!(call("read"), None);
        assert_eq!(call("read 1 1"), None);
        assert_eq!(call("Read 1"), None);
        assert_eq!(call("read\x0B1"), None);
        assert_eq!(understood(b"read 1\x00"), Line::Bad(vec!["read HHHHHHHH"]));
        assert_eq!(understood(b"\xFF"), Line::Bad(vec![]));
    }

    #[test]
    fn remarks_and_blank_lines() {
        for blank in ["", " ", "\r", "\t \r"] {
            assert_eq!(understood(blank.as_bytes()), Line::Blank);
        }
        for remark in ["#", "# draw", "#draw\r"] {
            assert_eq!(
                understood(remark.as_bytes()),
                Line::Remark(remark.as_bytes())
            );
        }
        assert_eq!(understood(b" #"), Line::Bad(vec![]));
    }

    #[test]
    fn a_line_has_at_most_200_bytes() {
        for (bytes, long) in [(199, false), (200, false), (201, true), (5000, true)] {
            for begins in ["tick", "#", " ", "none"] {
                let mut line = begins.as_bytes().to_vec();
                line.resize(bytes, b' ');
                assert_eq!(understood(&line) == Line::TooLong, long);
            }
        }
        let mut line = vec![b' '; 196];
        line.extend(b"tick");
        assert_eq!(understood(&line), Line::Call("tick", vec![]));
    }

    /// A table in the program's code: the name of each variant as words, and the text beside it.
    fn table_of(code: &str, table: &str) -> Vec<(String, String)> {
        let (_, rest) = code.split_once(&format!("const {table}:")).unwrap();
        let (rows, _) = rest.split_once("\n];").unwrap();
        let pair = |row: &str| {
            let (variant, text) = row.split_once("::")?.1.split_once(", \"")?;
            let mut words = String::new();
            for letter in variant.chars() {
                if letter.is_uppercase() && !words.is_empty() {
                    words.push(' ');
                }
                words.extend(letter.to_lowercase());
            }
            Some((words, text.split('"').next()?.to_string()))
        };
        rows.lines().filter_map(pair).collect()
    }

    #[test]
    fn the_program_has_each_form_and_name_beside_its_words() {
        let forms = include_str!("../../../crates/monitor/src/forms.rt");
        let words = |form: &str| {
            let plain = |word: &&str| !word.starts_with(|letter: char| letter.is_uppercase());
            let words: Vec<&str> = form.split(' ').take_while(plain).collect();
            words.join(" ")
        };
        let wanted = FORMS.map(|form| (words(form), form.to_string()));
        assert_eq!(table_of(forms, "FORMS"), wanted);
        let wanted = NAMES.map(|(name, _)| (name.to_string(), name.to_string()));
        assert_eq!(table_of(forms, "NAMES"), wanted);
    }

    #[test]
    fn forms_of_the_same_word() {
        let bad = understood(b"shadow 1");
        let forms = vec!["shadow write DDDDD HH", "shadow read DDDDD"];
        assert_eq!(bad, Line::Bad(forms));
        assert_eq!(understood(b"help me"), Line::Bad(vec!["help"]));
        assert_eq!(understood(b"line"), Line::Bad(vec!["line DDDDD DDDDD"]));
        assert_eq!(understood(b"lines 1"), Line::Bad(vec!["lines"]));
        assert_eq!(understood(b"why 1"), Line::Bad(vec!["why DDDDD DDDDD"]));
        assert_eq!(understood(b"ask"), Line::Bad(vec!["ask DDDDD"]));
        for bad in ["index 0", "index stored 0 0", "index store 0"] {
            let forms = vec!["index", "index store HHHHHHHH HH"];
            assert_eq!(understood(bad.as_bytes()), Line::Bad(forms), "{bad}");
        }
        assert_eq!(
            understood(b"wait 8"),
            Line::Bad(vec!["wait DDDDD HHHHHHHH"])
        );
    }
}
