//! Stores with the index lent: over strewn memories and laid chains, with indexes that are true and of any bytes, and
//! in a run.
use super::strewn::{lay, strew};
use super::{run, Script, PLACES, ROWS};

pub fn script() -> Script {
    let mut script = Script::new(
        11,
        "INDEXED. Stores with picture and index lent: the kept index equals the one worked out from memory afresh.",
    );
    fresh(&mut script);
    kept(&mut script);
    for (columns, torn) in [(80, ROWS), (132, 17)] {
        laid(&mut script, columns, torn);
    }
    untrue(&mut script);
    script.remark(
        "A run of all calls, with one picture and one index kept: each store of the 8088 is lent both.",
    );
    script.line("power");
    strew(&mut script, 40, 17);
    run::run(&mut script, |_| true);
    script
}

/// Indexes worked out afresh.
fn fresh(script: &mut Script) {
    for every in [1, 2, 3, 10, 40, 66, 80, 132, 400] {
        for under in [256, 17] {
            script.remark(&format!(
                "Afresh: one in {every} FF, the others under {under}, at 80 columns and at 132."
            ));
            strew(script, every, under);
            for columns in [132, 80] {
                script.columns(columns);
                script.lines(&["index", "sums", "bytes index 0 150"]);
            }
            script.line("bytes index 4096 150");
        }
    }
}

fn kept(script: &mut Script) {
    for columns in [80, 132] {
        for (every, under) in [(3, 4), (10, 256), (40, 17), (80, 4)] {
            script.remark(&format!(
                "Kept: one in {every} FF, the others under {under}, {columns} columns, and stores."
            ));
            script.columns(columns);
            strew(script, every, under);
            script.lines(&["draw", "index"]);
            for _ in 0..3 {
                for _ in 0..14 {
                    script.aimed_index_store();
                }
                script.compare_with_index();
            }
        }
    }
}

/// Stores beside the end of each row, up to the torn one, each followed by one that puts the byte back.
fn laid(script: &mut Script, columns: usize, torn: usize) {
    script.remark(&format!(
        "Laid: a chain of full rows at {columns} columns, each byte stored and put back."
    ));
    script.columns(columns);
    strew(script, 65536, 17);
    lay(script, columns, torn, ROWS);
    script.lines(&["draw", "index", "sums"]);
    for row in 0..ROWS {
        let memory = [0xEE000, 0xEF000][row % 2];
        let place = script.row_end(row.min(torn), row * 5 + row / 6);
        let (byte, was) = script.byte_for(memory | place);
        script.index_store(memory | place, byte);
        script.line("sums");
        script.index_store(memory | place, was);
    }
    script.compare_with_index();
}

/// Indexes of any bytes, and true ones of which the stored place's entry is not.
fn untrue(script: &mut Script) {
    for (columns, every) in [(80, 10), (80, 40), (132, 20), (132, 80)] {
        script.remark(&format!(
            "Untrue: indexes of any bytes beside a screen of one in {every} FF, {columns} columns."
        ));
        script.columns(columns);
        strew(script, every, 17);
        for under in [2, 12, 26, 30, 256] {
            let seed = script.next();
            script.lines(&["draw", "index"]);
            script.aimed_index_store();
            script.line(&format!("strew index {seed} 30 {under}"));
            for _ in 0..3 {
                script.aimed_index_store();
                script.line("sums");
            }
            script.line(&format!("strew picture {seed} 30 256"));
            script.aimed_index_store();
            script.line("sums");
        }
        script.lines(&["draw", "index"]);
        for _ in 0..12 {
            let (n, entry) = (script.next(), script.next() % (ROWS + 3));
            let place = n % (2 * PLACES);
            script.line(&format!("put index {place} {entry:02X}"));
            script.index_store(0xEE000 + place, (n >> 8) as u8);
            script.line("sums");
        }
    }
}
