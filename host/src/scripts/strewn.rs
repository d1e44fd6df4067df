//! Strewn memories and laid chains: drawn, stored into, and beside pictures of any bytes.
use super::{capacity, Script, ROWS};

pub fn script() -> Script {
    let mut script = Script::new(
        7,
        "STREWN. Memories of any bytes, one in so many FF, drawn at 80 columns and at 132.",
    );
    drawn(&mut script);
    kept(&mut script);
    for (columns, torn, wild) in [(80, ROWS, ROWS - 1), (132, 17, 9)] {
        laid(&mut script, columns, torn, wild);
    }
    untrue(&mut script);
    script
}

pub fn strew(script: &mut Script, every: usize, under: usize) {
    let (screen, attribute) = (script.next(), script.next());
    script.line(&format!("strew screen {screen} {every} {under}"));
    script.line(&format!("strew attribute {attribute} 30 256"));
}

fn drawn(script: &mut Script) {
    for every in [1, 2, 3, 10, 40, 66, 80, 132, 400] {
        for under in [256, 17] {
            script.remark(&format!("One in {every} FF, the others under {under}."));
            strew(script, every, under);
            script.lines(&["draw", "rows", "port 04 10", "draw", "rows", "sums"]);
            script.columns(80);
        }
    }
}

fn kept(script: &mut Script) {
    for columns in [80, 132] {
        for (every, under) in [(3, 4), (10, 256), (40, 17), (80, 4)] {
            script.remark(&format!(
                "Kept: one in {every} FF, the others under {under}, {columns} columns, and stores."
            ));
            script.columns(columns);
            strew(script, every, under);
            script.line("draw");
            for _ in 0..2 {
                for _ in 0..14 {
                    script.aimed_store();
                }
                script.compare();
            }
        }
    }
}

/// A chain of all rows, each a few bytes after the one before, most of them full; one may be torn. The links from a row
/// on are wild. The answer is where the last row's high link byte is, and what it is.
pub fn lay(script: &mut Script, columns: usize, torn: usize, wild: usize) -> (usize, u8) {
    let (mut start, mut kind, mut last) = (0, 3, (0, 0));
    for row in 0..ROWS {
        let (n, m) = (script.next(), script.next());
        let most = capacity(columns, kind);
        let cells = match n & 7 {
            _ if torn == row => most + 1,
            0 | 1 => (n >> 3) % 40,
            2 | 3 => most - 1,
            _ => most,
        };
        let end = start + cells;
        start = end + 3 + m % 3;
        kind = (m >> 2) as u8;
        let [low, high] = (start as u16).to_le_bytes();
        let rubbish = if row < wild { 0 } else { m >> 10 | 1 };
        let high = high | (rubbish << 4) as u8;
        last = (end + 2, high);
        for (place, byte) in [0xFF, low, high].into_iter().enumerate() {
            script.line(&format!("put screen {} {byte:02X}", end + place));
        }
        script.line(&format!("put attribute {} {kind:02X}", end + 1));
    }
    last
}

/// Stores beside the end of each row, up to the torn one, each followed by one that puts the byte back.
fn laid(script: &mut Script, columns: usize, torn: usize, wild: usize) {
    script.remark(&format!(
        "Laid: a chain of full rows at {columns} columns, each byte stored and put back. Links are wild from row \
         {wild} on."
    ));
    script.columns(columns);
    strew(script, 65536, 17);
    let (place, high) = lay(script, columns, torn, wild);
    script.lines(&["draw", "rows"]);
    if wild == ROWS - 1 {
        script.remark(
            "\"the first such row, or none\": the last row's link made tame, then wild again.",
        );
        for byte in [high & 0x0F, high] {
            script.line(&format!("put screen {place} {byte:02X}"));
            script.line("draw");
        }
    }
    for row in 0..ROWS {
        let memory = [0xEE000, 0xEF000][row % 2];
        let place = script.row_end(row.min(torn), row * 5 + row / 6);
        let (byte, was) = script.byte_for(memory | place);
        script.store(memory | place, byte);
        script.store(memory | place, was);
    }
    script.compare();
}

fn untrue(script: &mut Script) {
    for (columns, every) in [(80, 10), (80, 40), (132, 20), (132, 80)] {
        script.remark(&format!(
            "Untrue: pictures of any bytes beside a screen of one in {every} FF, {columns} columns."
        ));
        script.columns(columns);
        strew(script, every, 17);
        for _ in 0..5 {
            let seed = script.next();
            script.line("draw");
            script.aimed_store();
            script.line(&format!("strew picture {seed} 30 256"));
            script.aimed_store();
            script.line("sums");
            script.aimed_store();
        }
        script.line("sums");
    }
}
