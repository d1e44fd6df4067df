//! Runs the tube on many memories and glyph tables, under every setting, and compares every byte that it
//! writes with the model.
//! usage: compare_tube TUBE [SCREENS]
use host::chain::{draw, read_by_rows, KIND_AT, PLACES, RECORD, ROWS};
use host::dots::{tube, GLYPHS};
use host::hard::{memories, written, Chance};
use host::machine::Machine;
use std::process::exit;

const WORDS: [&str; 4] = ["132", "reverse", "blink", "blanked"];
const LATCHES: [&str; 10] = [
    "latch=0", "latch=1", "latch=2", "latch=3", "latch=4", "latch=5", "latch=6", "latch=7",
    "latch=8", "latch=9",
];

/// Words that are no settings.
const WRONG: [&str; 16] = [
    "",
    "13",
    "1322",
    "Blink",
    "reverse field",
    "blankedd",
    "latch",
    "latch=",
    "latch=x",
    "latch=:",
    "latch=/",
    "latch=10",
    "latch=03",
    "latch=-1",
    "LATCH=3",
    "latch 3",
];
const WRONG_WORD: &str =
    "tube: each argument must be 132, reverse, blink, blanked or latch=0 to latch=9\n";
const WRONG_LENGTH: &str =
    "tube: standard input must be 12288 bytes: screen, attribute and glyph memory\n";

/// Words that are settings, each perhaps there, and the machine that they make. Of two latches the last counts.
fn settings(chance: &mut Chance) -> (Vec<&'static str>, Machine) {
    let mut words: Vec<&str> = WORDS.into_iter().filter(|_| chance.below(2) == 0).collect();
    if chance.below(4) > 0 {
        words.retain(|word| *word != "blanked");
    }
    for _ in 0..chance.of(&[0, 1, 1, 1, 1, 1, 1, 2]) {
        words.insert(chance.below(words.len() + 1), chance.of(&LATCHES));
    }
    let latch = |word: &&str| LATCHES.iter().position(|latch| latch == word);
    let latch = words.iter().rev().find_map(latch).unwrap_or(0);
    let has = |word| words.contains(&word);
    let machine = Machine {
        columns: if has("132") { 132 } else { 80 },
        reverse: has("reverse"),
        blink: has("blink"),
        held: if has("blanked") { 0x00 } else { 0x02 },
        latch: latch as u8,
        ..Machine::power_up()
    };
    (words, machine)
}

/// Chooses which rows scroll: those that do, none, or one run and perhaps others after it. The chain stays, since the
/// scrolling bit says nothing of a row's length. A row that is reached twice has the kind that it is given last.
fn choose_run(chance: &mut Chance, memories: &mut [u8], columns: usize) {
    let (screen, attribute) = memories.split_at_mut(PLACES);
    let first = match chance.below(4) {
        0 => return,
        1 => 1,
        _ => chance.below(ROWS + 1),
    };
    let end = match chance.below(4) {
        0 => ROWS,
        1 => first + 1,
        _ => first + chance.below(ROWS),
    };
    let more = chance.below(2) == 0;
    let rows = read_by_rows(screen, attribute, columns).expect("the right lengths");
    for (row, places) in rows.iter().enumerate() {
        // A row that is not torn or dark reads the kind of the next one last.
        let scrolls =
            (first..end).contains(&(row + 1)) || more && row > end && chance.below(2) == 0;
        if let Some(place) = places.attribute.last() {
            attribute[*place] = attribute[*place] & !4 | u8::from(scrolls) << 2;
        }
    }
}

/// An input of a wrong length, or a word that is no setting, and what is told of it.
fn spoil(chance: &mut Chance, input: &mut Vec<u8>, words: &mut Vec<&str>) -> &'static str {
    if chance.below(2) == 0 {
        input.resize(chance.of(&[0, 1, 4096, 8192, 12287, 12289, 24576]), 0x41);
        WRONG_LENGTH
    } else {
        words.insert(chance.below(words.len() + 1), chance.of(&WRONG));
        WRONG_WORD
    }
}

/// Whether some row of the screen scrolls.
fn has_run(screen: &[u8], attribute: &[u8], machine: &Machine) -> bool {
    let drawn = draw(screen, attribute, machine.columns.into());
    let picture = drawn.map_or(Vec::new(), |drawn| drawn.picture);
    picture
        .chunks(RECORD)
        .any(|record| record[KIND_AT] & 4 != 0)
}

fn main() -> std::io::Result<()> {
    let given: Vec<String> = std::env::args().skip(1).collect();
    let screens = given.get(1).map_or(Some(500), |n| n.parse().ok());
    let (program, screens) = match (given.first(), screens) {
        (Some(program), Some(screens)) => (program, screens),
        _ => {
            eprintln!("usage: compare_tube TUBE [SCREENS]");
            exit(2);
        }
    };
    let mut chance = Chance(0x9E3779B97F4A7C15);
    let (mut drawn, mut scrolled, mut refused) = (0, 0, 0);
    for screen in 0..screens {
        let (mut words, machine) = settings(&mut chance);
        let mut input = memories(&mut chance);
        choose_run(&mut chance, &mut input, machine.columns.into());
        input.extend((0..GLYPHS).map(|_| chance.byte()));
        let right = chance.below(8) > 0;
        let (wanted, wanted_told) = if right {
            let (memory, table) = input.split_at(2 * PLACES);
            let (screen, attribute) = memory.split_at(PLACES);
            let moved = machine.latch > 0 && has_run(screen, attribute, &machine);
            scrolled += usize::from(moved);
            (tube(&machine, screen, attribute, table), "")
        } else {
            (Vec::new(), spoil(&mut chance, &mut input, &mut words))
        };
        let (out, told) = written(program, &words, &input, &mut chance)?;
        if out != wanted || told != wanted_told {
            std::fs::write("differs.bin", &input)?;
            println!("screen {screen} with {words:?} differs; its input is in differs.bin");
            exit(1);
        }
        drawn += usize::from(right);
        refused += usize::from(!right);
    }
    println!(
        "{screens} inputs, no difference: {drawn} drawn, {scrolled} of them with rows that scroll, {refused} refused"
    );
    Ok(())
}
