//! With `memories`: the sample memories, which the program crates/tube is given. With no word: what it must write for
//! them, by the model. With `milking`: the memories of the page whose table scrolls. With `latch=0` to `latch=9`: what
//! the program must write for those and that word.
use host::chain::PLACES;
use host::dots::tube;
use host::machine::Machine;
use host::tube_sample::{herd_book, milking, Read};
use std::io::Write;
use std::process::exit;

/// What the tube shows at a latch. The other settings are those of power-up, but the display is not blanked.
fn shown(memories: &[u8], latch: u8) -> Vec<u8> {
    let machine = Machine {
        held: 0x02,
        latch,
        ..Machine::power_up()
    };
    let (screen, rest) = memories.split_at(PLACES);
    let (attribute, table) = rest.split_at(PLACES);
    tube(&machine, screen, attribute, table)
}

/// The latch of a word `latch=0` to `latch=9`.
fn latch(word: &str) -> Option<u8> {
    match word.strip_prefix("latch=")?.as_bytes() {
        [digit @ b'0'..=b'9'] => Some(digit - b'0'),
        _ => None,
    }
}

fn asked(word: Option<&str>) -> Read<Vec<u8>> {
    match word {
        None => Ok(shown(&herd_book()?, 0)),
        Some("memories") => herd_book(),
        Some("milking") => milking(),
        Some(word) => match latch(word) {
            Some(latch) => Ok(shown(&milking()?, latch)),
            None => {
                eprintln!("usage: expected_tube [memories | milking | latch=0 to latch=9]");
                exit(2);
            }
        },
    }
}

fn main() -> std::io::Result<()> {
    let bytes = asked(std::env::args().nth(1).as_deref()).unwrap_or_else(|wrong| {
        eprintln!("{wrong}");
        exit(1);
    });
    std::io::stdout().write_all(&bytes)
}
