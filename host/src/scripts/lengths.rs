//! Every call with each of its memories lent too short and too long.
use super::{Script, ROWS};
use crate::chain::PAIRS;
use crate::monitor::lines::NAMES;

/// What is called, the memories that it is lent, a line that is accepted and one that is not.
type Tried<'a> = (&'a str, &'a [&'a str], &'a str, &'a str);

const CALLS: [Tried<'static>; 12] = [
    (
        "the 8088's read",
        &["shared", "screen", "attribute"],
        "read EE000",
        "read F0000",
    ),
    (
        "the 8088's store with no picture",
        &["shared", "screen", "attribute"],
        "blind EE000 41",
        "blind F0000 41",
    ),
    (
        "the 8088's store with a picture lent",
        &["shared", "screen", "attribute", "picture"],
        "store EE000 41",
        "store 10000 41",
    ),
    (
        "the 8088's store with a picture and an index lent",
        &["shared", "screen", "attribute", "picture", "index"],
        "index store EE000 41",
        "index store 10000 41",
    ),
    (
        "the Z80's read, while it is held",
        &["private", "shared"],
        "z80 read 0000",
        "z80 read 0800",
    ),
    (
        "the Z80's store, while it is held",
        &["private", "shared"],
        "z80 store 0000 41",
        "z80 store 0800 41",
    ),
    (
        "a port's write, with a save",
        &["shadow", "nvm"],
        "port 0A 40",
        "port 05 FF",
    ),
    (
        "a port's write, with a recall",
        &["shadow", "nvm"],
        "port 0A 80",
        "port 0A C0",
    ),
    (
        "a write of the DC012",
        &["shadow", "nvm"],
        "port 0C 08",
        "port 0C 0C",
    ),
    (
        "a read of the shadow",
        &["shadow"],
        "shadow read 0",
        "shadow read 256",
    ),
    (
        "a write of the shadow",
        &["shadow"],
        "shadow write 0 41",
        "shadow write 256 41",
    ),
    ("the part of a code", &["glyphs"], "glyph 00", "glyph FF"),
];

/// The calls with those that show a picture; two are refused at a row past the last, for which they have these lines.
fn calls<'a>([scan_past, why_past]: [&'a str; 2]) -> Vec<Tried<'a>> {
    let drawing: [Tried; 5] = [
        (
            "the drawing call",
            &["screen", "attribute", "picture"],
            "draw",
            "draw",
        ),
        (
            "the index worked out afresh",
            &["screen", "attribute", "index"],
            "index",
            "index",
        ),
        (
            "the scan line call",
            &["picture", "glyphs", "line"],
            "line 0 1",
            scan_past,
        ),
        (
            "the list of the whole screen",
            &["picture", "lines"],
            "lines",
            "lines",
        ),
        (
            "what explains a cell",
            &["screen", "attribute"],
            "why 0 0",
            why_past,
        ),
    ];
    CALLS.into_iter().chain(drawing).collect()
}

pub fn script() -> Script {
    let mut script = Script::new(
        0,
        "LENGTHS. \"1: a lent buffer's length differs from the list. The lowest number wins. All buffers \
         and the machine stay.\"",
    );
    for (seed, (name, _)) in NAMES.iter().enumerate() {
        script.line(&format!("strew {name} {} 20 256", 400 + seed));
    }
    let past = [format!("line {ROWS} 0"), format!("why {ROWS} {PAIRS}")];
    let past = past.each_ref().map(String::as_str);
    for (call, memories, right, wrong) in calls(past) {
        script.remark(&format!("By {call}: {}.", memories.join(", ")));
        script.line("sums");
        if serves(right) {
            script.lines(&["ask 3", "viewers"]);
        }
        for name in memories {
            refused(&mut script, name, right, wrong);
        }
        if right.starts_with("z80") {
            script.remark("The same while it runs.");
            script.line("port 0A 01");
            for name in memories {
                refused(&mut script, name, right, wrong);
            }
            script.line("port 0A 00");
        }
        if right == "lines" {
            script.remark("The same with the scroll latch over 9; then at their own lengths.");
            script.line("latch 0A");
            for name in memories {
                refused(&mut script, name, right, wrong);
            }
            script.lines(&["lines", "latch 00"]);
        }
        if by_8088(right) {
            script.remark("The same while the 8088 is in reset; then at their own lengths.");
            reset(&mut script);
            for name in memories {
                refused(&mut script, name, right, wrong);
            }
            script.lines(&[right, wrong]);
            out_of_reset(&mut script);
        }
        script.lines(&["sums", "machine"]);
        if serves(right) {
            script.line("viewers");
        }
    }
    script.remark("Two lengths that are wrong at once; a shared and a private memory that are lent for each other.");
    script.lines(&["lend shared 2048", "lend private 2049", "z80 read 0000"]);
    script.lines(&["lend screen 0", "lend attribute 0", "read EE000", "draw"]);
    script.line("power");
    script.remark("A wrong length of a memory that a call is not lent plays no part.");
    script.lines(&[
        "lend private 0",
        "lend glyphs 0",
        "lend nvm 0",
        "lend line 0",
        "lend lines 0",
    ]);
    script.lines(&["index", "index store EE000 40", "lend index 0"]);
    script.lines(&["draw", "read EE000", "blind EE000 41", "store EE000 42"]);
    script.lines(&[
        "ask 0",
        "why 0 0",
        "shadow write 0 05",
        "shadow read 0",
        "power",
    ]);
    script.lines(&["lend shared 0", "lend private 0", "lend nvm 0", "draw"]);
    script.lines(&["lend picture 0", "glyph 41", "index", "power"]);
    script.line("lend picture 0");
    script.lines(&[
        "why 0 0",
        "read EE000",
        "blind EE000 43",
        "power",
        "lend screen 0",
    ]);
    script.lines(&["lend attribute 0", "port 0A 01"]);
    script.lines(&["z80 read 0800", "line 0 1", "lend glyphs 0"]);
    script.lines(&["lend index 0", "lend line 0", "lines", "ask 7"]);
    script.lines(&["ask 8", "viewers"]);
    script.remark("Lent at their own lengths, each is accepted, or refused by the next number.");
    script.lines(&["power", "z80 read 0000", "z80 store 0000 41"]);
    script.line("port 0A 03");
    for (_, _, right, wrong) in calls(past) {
        script.lines(&[right, wrong]);
    }
    script.lines(&["ask 7", "ask 8", "sums", "machine", "viewers"]);
    script.remark("The same while the 8088 is in reset: its own are refused by 8, and no other.");
    script.line("port 0A 03");
    reset(&mut script);
    for (_, _, right, wrong) in calls(past) {
        script.lines(&[right, wrong]);
    }
    script.lines(&["ask 7", "ask 8"]);
    out_of_reset(&mut script);
    script.lines(&["sums", "machine", "viewers"]);
    script
}

/// Whether a line keeps the viewers too.
fn serves(line: &str) -> bool {
    line == "draw" || line.starts_with("store ") || line.starts_with("index store ")
}

/// Whether a line is one of the 8088's.
fn by_8088(line: &str) -> bool {
    let first = line.split(' ').next().unwrap_or_default();
    ["read", "blind", "store", "port", "shadow"].contains(&first)
        || line.starts_with("index store ")
}

/// From a disabled watchdog to the 8088's reset.
fn reset(script: &mut Script) {
    script.lines(&["port 0C 00", "watch 128"]);
}

fn out_of_reset(script: &mut Script) {
    script.lines(&["watch 128", "port 10C 00"]);
}

/// A memory lent at three wrong lengths.
fn refused(script: &mut Script, name: &str, right: &str, wrong: &str) {
    let found = NAMES.iter().find(|(other, _)| *other == name);
    let length = found.map_or(0, |(_, length)| *length);
    for wrong_length in [0, length - 1, length + 1] {
        script.line(&format!("lend {name} {wrong_length}"));
        script.line(right);
        if wrong != right {
            script.line(wrong);
        }
    }
    script.line(&format!("lend {name} {length}"));
}
