//! A screen that a herd book might show: a list of the morning's milk, with treated cows on hold, in 25 lines. Those
//! of its table are in a scrolling region that has moved, so they follow one another in the chain and not in memory.
use crate::chain::PLACES;

const PLAIN: u8 = 0x0E;
const REVERSE: u8 = 0x0F;
const BOLD: u8 = 0x0C;
const UNDERLINE: u8 = 0x06;

const NORMAL: u8 = 3;
const WIDE: u8 = 2;
const TOP: u8 = 1;
const BOTTOM: u8 = 0;
const SCROLLING: u8 = 4;

struct Line {
    kind: u8,
    attribute: u8,
    text: String,
}

fn line(kind: u8, attribute: u8, text: &str) -> Line {
    Line {
        kind,
        attribute,
        text: text.to_string(),
    }
}

/// Number, ear tag, name, tenths of a litre, hundredths of a per cent of fat, on hold.
const COWS: [(u16, u32, &str, u16, u16, bool); 14] = [
    (3, 402217, "ADELA", 118, 402, false),
    (4, 402218, "BERTA", 96, 431, false),
    (7, 402231, "BLOSSOM", 142, 388, false),
    (9, 402240, "CLARA", 87, 455, true),
    (11, 402242, "DAISY", 131, 397, false),
    (12, 402243, "DORIS", 125, 410, false),
    (15, 402259, "EDITH", 104, 426, false),
    (16, 402260, "ELSIE", 0, 0, false),
    (18, 402263, "FLORA", 137, 391, false),
    (21, 402270, "GERDA", 111, 418, false),
    (22, 402271, "HILDA", 99, 440, true),
    (26, 402288, "IRMA", 128, 405, false),
    (30, 402301, "JUNO", 115, 412, false),
    (31, 402302, "KAREN", 140, 393, false),
];

fn lines() -> Vec<Line> {
    let mut all = vec![
        line(
            NORMAL,
            PLAIN,
            " HERD BOOK 2.1          FARM 4711          MORNING MILKING          15-NOV-85",
        ),
        line(TOP, BOLD, "         COLLECTION LIST"),
        line(BOTTOM, BOLD, "         COLLECTION LIST"),
        line(WIDE, PLAIN, " TANKER 3   BULK TANK 2   08:40"),
        line(NORMAL, PLAIN, ""),
        line(
            NORMAL,
            UNDERLINE,
            "   NO   EAR TAG   NAME            LITRES   FAT %   HOLD",
        ),
    ];
    for (number, tag, name, litres, fat, hold) in COWS {
        let milk = format!("{:>6}.{}", litres / 10, litres % 10);
        let fat = format!("{:>5}.{:02}", fat / 100, fat % 100);
        let mark = if hold { "   HOLD" } else { "" };
        let attribute = if hold { REVERSE } else { PLAIN };
        let text = format!("{number:>5}   {tag:>7}   {name:<14}{milk}{fat}{mark}");
        all.push(line(SCROLLING | NORMAL, attribute, &text));
    }
    let litres: u16 = COWS.iter().filter(|cow| !cow.5).map(|cow| cow.3).sum();
    all.push(line(NORMAL, PLAIN, ""));
    all.push(line(
        NORMAL,
        BOLD,
        &format!(
            "        TO THE TANKER {:>20}.{} LITRES",
            litres / 10,
            litres % 10
        ),
    ));
    all.push(line(NORMAL, PLAIN, ""));
    all.push(line(
        NORMAL,
        REVERSE,
        " F1 NEXT PAGE   F2 PRINT   F3 HOLD OR RELEASE   F4 LEAVE",
    ));
    // Row 24, which shows only while the table scrolls.
    all.push(line(NORMAL, PLAIN, " PAGE 1 OF 3"));
    all
}

/// The order in which the lines lie in memory: the table has scrolled by five lines.
fn order(lines: usize) -> Vec<usize> {
    let table = 6..20;
    let moved = table.clone().skip(5).chain(table.clone().take(5));
    (0..table.start)
        .chain(moved)
        .chain(table.end..lines)
        .collect()
}

/// The screen memory and the attribute memory, one after the other.
pub fn herd_book() -> Vec<u8> {
    let lines = lines();
    let mut starts = vec![0; lines.len()];
    let mut place = 0;
    for row in order(lines.len()) {
        starts[row] = place;
        place += lines[row].text.len() + 3;
    }
    let mut screen = vec![0; PLACES];
    let mut attribute = vec![0; PLACES];
    for (row, line) in lines.iter().enumerate() {
        let next = (row + 1) % lines.len();
        let end = starts[row] + line.text.len();
        screen[starts[row]..end].copy_from_slice(line.text.as_bytes());
        attribute[starts[row]..end].fill(line.attribute);
        screen[end] = 0xFF;
        screen[end + 1..end + 3].copy_from_slice(&(starts[next] as u16).to_le_bytes());
        attribute[end + 1] = lines[next].kind;
    }
    [screen, attribute].concat()
}
