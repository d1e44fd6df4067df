//! The language of docs/MONITOR.md, spoken by the model: what the program crates/monitor must answer to its
//! lines.
pub mod lines;
mod memory;
pub mod session;
pub mod shown;

use lines::{understood, Line};
pub use session::Session;

/// The lines of a text, without their ends. The last one need not have an end.
pub fn split(text: &[u8]) -> impl Iterator<Item = &[u8]> {
    let whole = text.strip_suffix(b"\n").unwrap_or(text);
    let nothing = text.is_empty();
    whole.split(|byte| *byte == b'\n').skip(nothing.into())
}

/// What a session answers to every line of a text.
pub fn answers(session: &mut Session, text: &[u8]) -> Vec<u8> {
    split(text).flat_map(|line| session.answer(line)).collect()
}

/// What is written for every line of a file: the line, after "> ", ahead of its answer.
pub fn transcript(session: &mut Session, text: &[u8]) -> Vec<u8> {
    let told = |line| [echo(line), session.answer(line)].concat();
    split(text).flat_map(told).collect()
}

/// A line as it is shown ahead of its answer. A remark is its own answer, and of a line over 200 bytes only the
/// answer is shown.
fn echo(line: &[u8]) -> Vec<u8> {
    match understood(line) {
        Line::Call(..) | Line::Bad(_) => [b"> ", line, b"\n"].concat(),
        Line::Blank | Line::Remark(_) | Line::TooLong => Vec::new(),
    }
}

#[cfg(test)]
mod tests {
    use super::*;

    fn heard(text: &[u8]) -> String {
        String::from_utf8(answers(&mut Session::power_up(), text)).unwrap()
    }

    #[test]
    fn a_last_line_needs_no_end() {
        assert_eq!(heard(b"read 0"), "reads 00\n");
        assert_eq!(heard(b"read 0\nread 1\n"), "reads 00\nreads 00\n");
        assert_eq!(heard(b""), "");
        assert_eq!(heard(b"\n\n"), "");
        assert_eq!(heard(b"# a"), "# a\n");
    }

    #[test]
    fn lines_of_a_file_are_shown() {
        let long = " ".repeat(201);
        let text = format!("read 0\n\n \t\n# a\n read\t0\r\nreads\n{long}\n #");
        let mut session = Session::power_up();
        let told = String::from_utf8(transcript(&mut session, text.as_bytes())).unwrap();
        let none = "expected one of the lines that help shows\n";
        let first = "> read 0\nreads 00\n# a\n>  read\t0\r\nreads 00\n";
        let too_long = "expected at most 200 bytes in a line\n";
        let all = format!("{first}> reads\n{none}{too_long}>  #\n{none}");
        assert_eq!(told, all);
        assert_eq!(
            transcript(&mut session, b"\xFF"),
            [b"> \xFF\n", none.as_bytes()].concat()
        );
    }

    #[test]
    fn refusals_are_told_by_number() {
        let both = "refused 6: bits 6 and 7 both rise";
        assert_eq!(shown::refused("port HHHH HH", 6), both);
        let reset = "refused 8, byte 00: the 8088 is in reset";
        assert_eq!(shown::refused("shadow read DDDDD", 8), reset);
        let place = "refused 5: no such row, column, scan or place";
        assert_eq!(shown::refused("line DDDDD DDDDD", 5), place);
        let why = "refused 5, as numbers 0 0000 0 0 0 0000: no such row, column, scan or place";
        assert_eq!(shown::refused("why DDDDD DDDDD", 5), why);
        let latch = "refused 9: the scroll latch is over 9";
        assert_eq!(shown::refused("lines", 9), latch);
        let viewer = "refused 10, marks 00000000: no such viewer";
        assert_eq!(shown::refused("ask DDDDD", 10), viewer);
        let other = "refused 11, byte 00: a refusal that the monitor does not know";
        assert_eq!(shown::refused("read HHHHHHHH", 11), other);
    }

    #[test]
    fn calls_are_answered_in_words() {
        let lines: [(&str, &str); 16] = [
            ("store 5 41", "stored, marks 00000000\n"),
            ("draw", "drawn, bytes read: 81, no wild row named\n"),
            ("store ee000 fF", "stored, marks 01FFFFFF 0 1 2 3"),
            ("read 10000", "refused 2, byte 00: the 8088 sees no memory"),
            ("bytes screen 4095 2", "bytes 00 00\n"),
            ("bytes screen 4096 2", "expected a place, or places"),
            ("lend line 1190", "expected a length up to one more"),
            ("marked 80000000 31", "marked\n"),
            ("marked FFFFFFFF 32", "not marked\n"),
            ("dots", "dots of a line: 800\n"),
            (
                "latch 1F",
                "latched: 80 columns, 60 Hz, interlace 0, latch 1F",
            ),
            ("scroll", "scroll latch: 0F\n"),
            (
                "port C 4",
                "written: 80 columns, 60 Hz, interlace 0, latch 03",
            ),
            ("scroll", "scroll latch: 03\n"),
            (
                "count 300 1",
                "counted: 80 columns, 60 Hz, interlace 0, latch 03, blink 0, interrupt 0, reverse 0, watchdog 1, \
                 count 44, reset 1,",
            ),
            ("read 5", "refused 8, byte 00: the 8088 is in reset\n"),
        ];
        let mut session = Session::power_up();
        for (line, begins) in lines {
            let answer = String::from_utf8(session.answer(line.as_bytes())).unwrap();
            assert!(answer.starts_with(begins), "{line}: {answer}");
        }
    }

    #[test]
    fn a_wrong_length_stays_lent_until_power_up() {
        let text = b"lend shared 65537\nread FFFFFFFF\nz80 read 0\nlend shared 65536\nread 0\n\
            lend screen 0\npower\ndraw\n";
        let refused = "refused 1, byte 00: a memory lent at another length than its own";
        let heard = heard(text);
        let lines: Vec<_> = heard.lines().collect();
        assert_eq!(lines[..4], ["lent", refused, refused, "lent"]);
        assert_eq!(lines[4], "reads 00");
        assert_eq!(lines[7], "drawn, bytes read: 81, no wild row named");
    }

    /// "each drawing should name the first such row, or none"; of a refusal: "no row named".
    #[test]
    fn a_drawing_names_the_first_wild_row() {
        let lines: [(&str, &str); 17] = [
            ("draw", "drawn, bytes read: 81, no wild row named\n"),
            ("put screen 0 FF", "put\n"),
            ("put screen 2 01", "put\n"),
            ("put screen 256 FF", "put\n"),
            ("put screen 258 02", "put\n"),
            ("draw", "drawn, bytes read: 47, no wild row named\n"),
            ("store EE102 32", "stored, marks 00000000\n"),
            ("draw", "drawn, bytes read: 47, first wild row: 1\n"),
            ("store EE002 F1", "stored, marks 00000000\n"),
            ("draw", "drawn, bytes read: 47, first wild row: 0\n"),
            ("lend screen 4095", "lent\n"),
            (
                "draw",
                "refused 1, bytes read 0, no wild row named: a memory lent at another length than its own\n",
            ),
            ("lend screen 4096", "lent\n"),
            ("fill screen FF", "filled\n"),
            ("draw", "drawn, bytes read: 75, first wild row: 0\n"),
            ("list 0", "columns 80 reads 75\n0 0000 3 0\n1 0FFF 0 0\n"),
            ("draw 1", "expected draw\n"),
        ];
        let mut session = Session::power_up();
        for (line, begins) in lines {
            let answer = String::from_utf8(session.answer(line.as_bytes())).unwrap();
            assert!(answer.starts_with(begins), "{line}: {answer}");
        }
    }

    /// 02, ticket 2: "So the Z80 runs only while the bit is 1." "Refusals: 7, the Z80 is held, for both Z80 access
    /// calls, after 1."
    #[test]
    fn a_z80_that_is_held_is_refused_by_7() {
        let lines: [(&str, &str); 13] = [
            ("z80 store 0800 41", "refused 7: the Z80 is held in reset\n"),
            ("z80 read 07FF", "refused 7, byte 00: the Z80 is held in reset\n"),
            ("lend private 2047", "lent\n"),
            ("z80 read 07FF", "refused 1, byte 00: a memory lent at"),
            ("lend private 2048", "lent\n"),
            ("put private 2047 42", "put\n"),
            (
                "port 0A 01",
                "written: 80 columns, 60 Hz, interlace 0, latch 00, blink 0, interrupt 0, reverse 0, watchdog 0, \
                 count 0, reset 0, 0A holds 01, z80 runs 1, blanked 1, graphics 0\n",
            ),
            ("z80 read 0800", "reads 00\n"),
            ("z80 read 07FF", "reads 42\n"),
            ("z80 store 0800 41", "stored\n"),
            ("read 800", "reads 41\n"),
            (
                "power",
                "power-up: 80 columns, 60 Hz, interlace 0, latch 00, blink 0, interrupt 0, reverse 0, watchdog 0, \
                 count 0, reset 0, 0A holds 00, z80 runs 0, blanked 1, graphics 0\n",
            ),
            ("z80 read 0800", "refused 7, byte 00: the Z80 is held in reset\n"),
        ];
        let mut session = Session::power_up();
        for (line, begins) in lines {
            let answer = String::from_utf8(session.answer(line.as_bytes())).unwrap();
            assert!(answer.starts_with(begins), "{line}: {answer}");
        }
    }

    /// 02, ticket 3: "one call advances them by a tick", "reset begins at the 128th tick after the last code 09,
    /// enabling or end of reset", "Refusals: 8, the 8088 is in reset, after 1, ahead of 2 to 6".
    #[test]
    fn an_8088_in_reset_is_refused_by_8() {
        let told = |word: &str, watchdog, count, reset| {
            format!(
                "{word}: 80 columns, 60 Hz, interlace 0, latch 00, blink 0, interrupt 0, reverse 0, \
                 watchdog {watchdog}, count {count}, reset {reset}, 0A holds 00, z80 runs 0, blanked 1, graphics 0\n"
            )
        };
        let (byte, marks) = ("refused 8, byte 00: ", "refused 8, marks 00000000: ");
        let reset = "the 8088 is in reset\n".to_string();
        let lines = [
            ("watch 200", told("watched", 0, 0, 0)),
            ("port 0C 00", told("written", 1, 0, 0)),
            ("watch 0", told("watched", 1, 0, 0)),
            ("watch 127", told("watched", 1, 127, 0)),
            ("read F0000", "refused 2, byte 00: ".to_string()),
            ("watch 1", told("watched", 1, 0, 1)),
            ("read F0000", format!("{byte}{reset}")),
            ("store F0000 41", format!("{marks}{reset}")),
            ("blind 0 41", format!("refused 8: {reset}")),
            ("shadow read 256", format!("{byte}{reset}")),
            ("shadow write 0 1", format!("refused 8: {reset}")),
            ("port 0C 09", format!("refused 8: {reset}")),
            ("lend shadow 255", "lent\n".to_string()),
            ("shadow read 256", "refused 1, byte 00: ".to_string()),
            ("lend shadow 256", "lent\n".to_string()),
            ("z80 read 0", "refused 7, byte 00: ".to_string()),
            ("draw", "drawn, bytes read: 81".to_string()),
            ("line 0 1", "....".to_string()),
            ("watch 128", told("watched", 1, 0, 0)),
            ("read 0", "reads 00\n".to_string()),
            ("port 0C 09", told("written", 1, 0, 0)),
            ("watch 99999", told("watched", 1, 31, 1)),
            ("power", told("power-up", 0, 0, 0)),
            ("watch 100000", "expected watch DDDDD\n".to_string()),
        ];
        let mut session = Session::power_up();
        for (line, begins) in lines {
            let answer = String::from_utf8(session.answer(line.as_bytes())).unwrap();
            assert!(answer.starts_with(&begins), "{line}: {answer}");
        }
    }

    /// 02, ticket 5: "Otherwise all 25 show, but the run's first row loses its top L scans and its last row its bottom
    /// 10 less L". "Refusals: 9, a whole screen asked for with L over 9".
    #[test]
    fn lines_of_the_whole_screen() {
        let full = |rows: std::ops::Range<usize>| -> String {
            rows.map(|row| format!(" {row}:1-10")).collect()
        };
        let at_rest = format!("lines{}\n", full(0..24));
        let lines = [
            ("lines", at_rest.clone()),
            ("put picture 538 04", "put\n".to_string()),
            ("put picture 806 04", "put\n".to_string()),
            ("lines", at_rest.clone()),
            ("port 0C 03", "written: ".to_string()),
            (
                "lines",
                format!("lines{} 2:4-10 3:1-3{}\n", full(0..2), full(4..25)),
            ),
            ("bytes lines 478 3", "bytes 18 0A 00\n".to_string()),
            ("port 0C 06", "written: ".to_string()),
            (
                "lines",
                "refused 9: the scroll latch is over 9\n".to_string(),
            ),
            ("lend lines 481", "lent\n".to_string()),
            (
                "lines",
                "refused 1: a memory lent at another length".to_string(),
            ),
            ("power", "power-up: ".to_string()),
            ("lines", at_rest),
            ("lines 1", "expected lines\n".to_string()),
        ];
        let mut session = Session::power_up();
        for (line, begins) in lines {
            let answer = String::from_utf8(session.answer(line.as_bytes())).unwrap();
            assert!(answer.starts_with(&begins), "{line}: {answer}");
        }
    }

    /// 02, ticket 7: "a store adds its marks to all eight, and a viewer who asks is handed its own and is cleared. Asking
    /// changes no other viewer's answer". "Refusals: 10, a viewer over 7".
    #[test]
    fn viewers_are_told_what_was_marked() {
        let each = |word: &str, marks: [u32; 8]| {
            let marks: String = marks.iter().map(|marks| format!(" {marks:08X}")).collect();
            format!("{word}:{marks}\n")
        };
        let rows: String = (0..25).map(|row| format!(" {row}")).collect();
        let all = format!("asked, marks 01FFFFFF{rows}\n");
        let none = "asked, marks 00000000\n".to_string();
        let x = 0x01FF_FFFF;
        let lines = [
            ("viewers", each("viewers", [x; 8])),
            ("ask 3", all.clone()),
            ("ask 3", none.clone()),
            ("viewers", each("viewers", [x, x, x, 0, x, x, x, x])),
            ("draw", "drawn, ".to_string()),
            ("ask 3", all.clone()),
            ("store EE000 41", "stored, marks 00000001 0\n".to_string()),
            ("ask 3", "asked, marks 00000001 0\n".to_string()),
            ("blind EE001 41", "stored\n".to_string()),
            ("store F0000 41", "refused 2, marks 00000000: ".to_string()),
            ("lend picture 0", "lent\n".to_string()),
            ("draw", "refused 1, ".to_string()),
            ("store EE001 42", "refused 1, marks 00000000: ".to_string()),
            ("ask 3", none.clone()),
            ("ask 7", all),
            (
                "ask 8",
                "refused 10, marks 00000000: no such viewer\n".to_string(),
            ),
            (
                "wait 7 FE000006",
                each("waits", [x, x, x, 0, x, x, x, 0xFE00_0006]),
            ),
            ("wait 8 1", "expected a viewer of 0 to 7\n".to_string()),
            (
                "ask 7",
                "asked, marks FE000006 1 2 25 26 27 28 29 30 31\n".to_string(),
            ),
            ("power", "power-up: ".to_string()),
            ("viewers", each("viewers", [x; 8])),
        ];
        let mut session = Session::power_up();
        for (line, begins) in lines {
            let answer = String::from_utf8(session.answer(line.as_bytes())).unwrap();
            assert!(answer.starts_with(&begins), "{line}: {answer}");
        }
    }

    /// 02, ticket 8: "takes f from it and not from the walk, over 24 being no row. Entries under f stay, the others
    /// become those of the memory after the store; with no row all stay".
    #[test]
    fn an_index_is_worked_out_and_kept() {
        let lines: [(&str, &str); 33] = [
            ("index", "indexed\n"),
            ("bytes index 79 3", "bytes 00 00 FF\n"),
            ("bytes index 4175 3", "bytes 00 FF FF\n"),
            ("bytes index 8191 2", "bytes FF 00\n"),
            ("draw", "drawn, "),
            ("ask 3", "asked, marks 01FFFFFF"),
            ("index store EE000 41", "stored, marks 00000001 0\n"),
            ("ask 3", "asked, marks 00000001 0\n"),
            ("index store EE002 FF", "stored, marks 01FFFFFF 0 1 2"),
            ("bytes index 0 6", "bytes 00 00 00 00 00 FF\n"),
            ("bytes index 4096 5", "bytes 00 00 FF 00 FF\n"),
            ("store EE005 41", "stored, marks 00000000\n"),
            ("index store EE005 42", "stored, marks 00000000\n"),
            ("put index 5 18", "put\n"),
            ("put index 6 17", "put\n"),
            ("put index 7 19", "put\n"),
            ("index store EE005 FF", "stored, marks 00000000\n"),
            ("bytes index 5 3", "bytes FF 17 FF\n"),
            ("put index 5 19", "put\n"),
            ("put index 7 20", "put\n"),
            ("index store EE005 42", "stored, marks 00000000\n"),
            ("bytes index 5 3", "bytes 19 17 20\n"),
            ("index store 5 42", "stored, marks 00000000\n"),
            ("index store F0000 42", "refused 2, marks 00000000: "),
            ("count 0 1", "counted: "),
            ("index store F0000 42", "refused 8, marks 00000000: "),
            ("lend index 8193", "lent\n"),
            ("index store F0000 42", "refused 1, marks 00000000: "),
            ("index", "refused 1: a memory lent at another length"),
            ("bytes index 5 3", "bytes 19 17 20\n"),
            ("lend index 8192", "lent\n"),
            ("index", "indexed\n"),
            ("bytes index 5 3", "bytes FF FF FF\n"),
        ];
        let mut session = Session::power_up();
        for (line, begins) in lines {
            let answer = String::from_utf8(session.answer(line.as_bytes())).unwrap();
            assert!(answer.starts_with(begins), "{line}: {answer}");
        }
    }

    /// 02, ticket 6: "a cell, with the place that holds it and the kind of its row; fill, with the place of the FF that
    /// ended the row; past the row's capacity; dark, with the row that tore; and, for all but the dark, the place of
    /// the low link byte that led to the row, or that it is row 0".
    #[test]
    fn why_a_cell_shows_what_it_shows() {
        let lines: [(&str, &str); 26] = [
            (
                "why 0 79",
                "cell, place 004F, kind 3, row 0, as numbers 1 004F 3 0 0 0000\n",
            ),
            ("why 0 80", "past, row 0, as numbers 3 0000 0 0 0 0000\n"),
            (
                "why 24 131",
                "dark, row 0 tore, as numbers 4 0000 0 0 0 0000\n",
            ),
            (
                "why 25 0",
                "refused 5, as numbers 0 0000 0 0 0 0000: no such row, column, scan or place\n",
            ),
            (
                "why 0 132",
                "refused 5, as numbers 0 0000 0 0 0 0000: no such row, column, scan or place\n",
            ),
            ("put screen 5 FF", "put\n"),
            ("put screen 6 FE", "put\n"),
            ("put screen 7 0F", "put\n"),
            ("put attribute 6 02", "put\n"),
            (
                "why 0 5",
                "fill, place 0005, row 0, as numbers 2 0005 0 0 0 0000\n",
            ),
            (
                "why 1 1",
                "cell, place 0FFF, kind 2, link at 0006, as numbers 1 0FFF 2 0 1 0006\n",
            ),
            (
                "why 1 2",
                "cell, place 0000, kind 2, link at 0006, as numbers 1 0000 2 0 1 0006\n",
            ),
            (
                "why 1 39",
                "fill, place 0005, link at 0006, as numbers 2 0005 0 0 1 0006\n",
            ),
            (
                "why 1 40",
                "past, link at 0006, as numbers 3 0000 0 0 1 0006\n",
            ),
            ("port 04 10", "written: 132 columns"),
            (
                "why 1 65",
                "fill, place 0005, link at 0006, as numbers 2 0005 0 0 1 0006\n",
            ),
            (
                "why 1 66",
                "past, link at 0006, as numbers 3 0000 0 0 1 0006\n",
            ),
            ("lend screen 4095", "lent\n"),
            (
                "why 25 0",
                "refused 1, as numbers 0 0000 0 0 0 0000: a memory lent at another length",
            ),
            ("lend screen 4096", "lent\n"),
            ("lend attribute 4097", "lent\n"),
            (
                "why 0 0",
                "refused 1, as numbers 0 0000 0 0 0 0000: a memory lent at another length",
            ),
            ("lend attribute 4096", "lent\n"),
            ("count 0 1", "counted: 132 columns"),
            (
                "why 0 4",
                "cell, place 0004, kind 3, row 0, as numbers 1 0004 3 0 0 0000\n",
            ),
            ("why 1", "expected why DDDDD DDDDD\n"),
        ];
        let mut session = Session::power_up();
        for (line, begins) in lines {
            let answer = String::from_utf8(session.answer(line.as_bytes())).unwrap();
            assert!(answer.starts_with(begins), "{line}: {answer}");
        }
    }

    #[test]
    fn bad_lines_tell_the_forms() {
        let two = "expected z80 store HHHH HH\nexpected z80 read HHHH\n";
        assert_eq!(heard(b"z80 stored 0 0"), two);
        let two = "expected index\nexpected index store HHHHHHHH HH\n";
        assert_eq!(heard(b"index store"), two);
        assert_eq!(heard(b"fill line"), "expected fill NAME HH\n");
        let none = "expected one of the lines that help shows\n";
        assert_eq!(heard(b"nothing"), none);
        assert_eq!(heard(b" # a"), none);
    }
}
