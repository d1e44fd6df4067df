//! Asks the program why of many cells of many screens, and compares what it prints, and tells on standard error, with
//! the model.
//! usage: compare_why WHY [QUESTIONS]
use host::chain::{PAIRS, PLACES, ROWS};
use host::hard::{memories, written, Chance};
use host::sample::herd_book;
use host::why::{program, Walk, Why, WRONG_LENGTH, WRONG_WORDS};
use std::process::exit;

/// Arguments that are wrong. The first two words of those with three are right.
const WRONG: [&[&str]; 26] = [
    &[],
    &["0"],
    &["132"],
    &["0", "0", "80"],
    &["0", "0", "0132"],
    &["0", "0", "1320"],
    &["0", "0", "13"],
    &["0", "0", ""],
    &["0", "0", "132 "],
    &["0", "0", "132", "132"],
    &["132", "0", "0"],
    &["25", "0"],
    &["25", "0", "132"],
    &["024", "132"],
    &["0", "132", "132"],
    &["999", "999"],
    &["0000", "0"],
    &["0", "0001"],
    &["", "0"],
    &["0", ""],
    &["+1", "0"],
    &["0", "-1"],
    &[" 1", "0"],
    &["0x1", "0"],
    &["1.", "0"],
    &["0:", "/"],
];

const WRONG_LENGTHS: [usize; 13] = [
    0, 1, 2, 4095, 4096, 4097, 8190, 8191, 8193, 8194, 12288, 16384, 70000,
];

/// A screen memory and an attribute memory: hard to walk, or now and then plain.
fn screen(chance: &mut Chance) -> Vec<u8> {
    match chance.below(20) {
        0 => vec![0x00; 2 * PLACES],
        1 => vec![0xFF; 2 * PLACES],
        2 | 3 => herd_book(),
        _ => memories(chance),
    }
}

/// A row and a column, most often one that a cell stands in: of some that are chosen the first.
fn cell(chance: &mut Chance, input: &[u8], columns: usize) -> (usize, usize) {
    let (screen, attribute) = input.split_at(PLACES);
    let walk = Walk::of(screen, attribute, columns).expect("the right lengths");
    let tries = chance.of(&[1, 1, 10, 40]);
    let mut chosen = (0, 0);
    for _ in 0..tries {
        chosen = (chance.below(ROWS), chance.below(PAIRS));
        if let Ok(Why::Cell { .. }) = walk.why(chosen.0, chosen.1) {
            break;
        }
    }
    chosen
}

/// A number as it may be written, in one to three digits.
fn digits(chance: &mut Chance, number: usize) -> String {
    match chance.below(4) {
        0 => format!("{number:02}"),
        1 => format!("{number:03}"),
        _ => number.to_string(),
    }
}

/// The arguments and the input of a question.
fn question(chance: &mut Chance) -> (Vec<String>, Vec<u8>) {
    let mut input = screen(chance);
    let columns = chance.of(&[80, 132]);
    let (row, column) = cell(chance, &input, columns);
    let mut words = vec![digits(chance, row), digits(chance, column)];
    if columns == 132 {
        words.push("132".to_string());
    }
    match chance.below(16) {
        0 => input.resize(chance.of(&WRONG_LENGTHS), 0x41),
        1 => {
            words = chance
                .of(&WRONG)
                .iter()
                .map(|word| word.to_string())
                .collect()
        }
        2 => {
            input.resize(chance.of(&WRONG_LENGTHS), 0x41);
            words = chance
                .of(&WRONG)
                .iter()
                .map(|word| word.to_string())
                .collect();
        }
        _ => {}
    }
    (words, input)
}

/// How many questions were answered in each way.
const WAYS: [(&str, &str); 4] = [
    ("cells", " shows "),
    ("fill", " is filled "),
    ("past", " has no column "),
    ("dark", " is dark, "),
];

fn main() -> std::io::Result<()> {
    let given: Vec<String> = std::env::args().skip(1).collect();
    let questions = given.get(1).map_or(Some(5000), |n| n.parse().ok());
    let (why, questions) = match (given.first(), questions) {
        (Some(why), Some(questions)) => (why, questions),
        _ => {
            eprintln!("usage: compare_why WHY [QUESTIONS]");
            exit(2);
        }
    };
    let mut chance = Chance(0x9E3779B97F4A7C15);
    let (mut answered, mut words_told, mut length_told) = ([0; WAYS.len()], 0, 0);
    for question_number in 0..questions {
        let (words, input) = question(&mut chance);
        let words: Vec<&str> = words.iter().map(String::as_str).collect();
        let (wanted, wanted_told) = program(&words, &input);
        let (text, told) = written(why, &words, &input, &mut chance)?;
        if text != wanted.as_bytes() || told != wanted_told {
            std::fs::write("differs.bin", &input)?;
            println!("question {question_number}, {words:?}, differs; its input is in differs.bin");
            println!(
                "wanted:\n{wanted}{wanted_told}printed:\n{}{told}",
                String::from_utf8_lossy(&text)
            );
            exit(1);
        }
        for (count, (_, words)) in answered.iter_mut().zip(WAYS) {
            *count += usize::from(wanted.contains(words));
        }
        words_told += usize::from(told == WRONG_WORDS);
        length_told += usize::from(told == WRONG_LENGTH);
    }
    let ways: Vec<String> = answered
        .iter()
        .zip(WAYS)
        .map(|(count, (way, _))| format!("{count} {way}"))
        .collect();
    println!(
        "{questions} questions, no difference: {}; {words_told} with wrong arguments, {length_told} of a wrong length",
        ways.join(", ")
    );
    Ok(())
}
