//! A run of calls of both processors and of the ports, with one picture and one index kept.
use super::{Script, ROWS};
use crate::chain::PAIRS;
use crate::viewers::VIEWERS;

const TURNS: usize = 320;

pub fn script() -> Script {
    let mut script = Script::new(
        5,
        "A RUN. Stores by both processors, the Z80 held or running, ticks, writes to ports, refused ones too; one \
         picture kept.",
    );
    script.remark(
        "Now and then the lines of the whole screen, why cells show what they show, and asks.",
    );
    script.remark(
        "In every other twenty turns the 8088 stores with the index lent, which is worked out ahead of them.",
    );
    script.lines(&["fill shadow 11", "fill nvm EE", "strew screen 51 40 17"]);
    script.line("strew attribute 52 30 256");
    run(&mut script, |turn| (turn - 1) / 20 % 2 == 1);
    script
}

/// The turns of a run; in some of them the stores of the 8088 are lent the index.
pub fn run(script: &mut Script, indexed: impl Fn(usize) -> bool) {
    script.lines(&["draw", "index"]);
    for turn in 1..=TURNS {
        match script.next() & 15 {
            0..=8 if indexed(turn) => script.aimed_index_store(),
            0..=8 => script.aimed_store(),
            9 | 10 => z80(script),
            11 => shadow(script),
            _ => port(script),
        }
        if turn % 7 == 0 {
            script.line(&format!("ask {}", turn / 7 % (VIEWERS + 1)));
        }
        if turn % 20 == 0 {
            script.line("viewers");
            script.compare_with_index();
            script.line("lines");
            why(script, turn / 20);
        }
    }
    script.lines(&["machine", "viewers", "rows"]);
}

/// A call of the Z80, now and then after bit 0 of port 0A was turned over, and no other bit.
fn z80(script: &mut Script) {
    let (n, m) = (script.next(), script.next());
    if m >> 11 & 3 == 0 {
        let turned = script.session.held() ^ 1;
        script.line(&format!("port 0A {turned:02X}"));
    }
    let address = match m >> 8 & 1 {
        0 => n & 0xFFFF,
        _ => 0x07F8 + (n & 15),
    };
    match m >> 9 & 3 {
        0 => script.line(&format!("z80 read {address:04X}")),
        _ => script.line(&format!("z80 store {address:04X} {:02X}", m & 255)),
    };
}

/// Cells here and there, in rows further and further down.
fn why(script: &mut Script, time: usize) {
    for (row, column) in [(time % 3, 5 * time), (time, 17 * time), (8 + time, 41)] {
        script.line(&format!("why {} {}", row % ROWS, column % PAIRS));
    }
}

fn shadow(script: &mut Script) {
    let (n, m) = (script.next() % 272, script.next());
    script.line(&format!("shadow write {n} {:02X}", m & 255));
    script.line(&format!("shadow read {}", m % 272));
}

/// A write to a port; after another column setting the picture and the index are made afresh.
fn port(script: &mut Script) {
    let ports = [0x04, 0x04, 0x04, 0x0A, 0x0A, 0x0C, 0x10C, 0x05];
    let (n, m) = (script.next(), script.next());
    let port = ports[n & 7];
    let code = match port {
        0x04 => (m % 5) << 4,
        0x0A => m & 255,
        _ => m % 14,
    };
    if n >> 3 & 3 == 0 {
        script.line("tick");
    }
    let before = script.session.columns();
    script.line(&format!("port {port:02X} {code:02X}"));
    if script.session.columns() != before {
        script.lines(&["draw", "index"]);
    }
}
