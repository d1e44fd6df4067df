//! Makes calls of a library and compares each with the model. See --help.
use host::chain::ROWS;
use host::load::{load, Fault, Tally, Tried, FAULTS};
use host::rainbow::{Library, FUNCTIONS};
use std::process::exit;
use std::time::Instant;

const USAGE: &str = "load [--calls N] [--seed S] [--fault N] [--against LIBRARY] LIBRARY";

struct Asked {
    calls: u64,
    seed: u64,
    fault: usize,
    library: String,
    against: Option<String>,
}

fn help() {
    println!("{USAGE}");
    println!("Makes N calls of a library (1000000 if not said; a first sweep of some thousands is made whole),");
    println!("chosen by the seed S, and compares each with a model of documents 01 and 02. Ahead of them come the");
    println!("lists of the whole screen with every one or two runs of rows that scroll, and some millions of ticks of");
    println!("the watchdog's clock, with codes between them; after them every cell of some hundred screens is");
    println!("explained, at both settings, and stored into, some hundred long runs are made in which eight viewers");
    println!("ask, and some in which an index is kept, and bytes are stored with an index, true and untrue, into");
    println!("every place of some screens; fewer of all these if N is under 1000000.");
    println!("LIBRARY is a librainbow.so, or run: and a command that serves its calls, as host/serve.c does.");
    println!("--against: makes each call of a second library too, and compares it with the first.");
    println!("Exit status: 0 no difference, 1 a difference, whose shortest script is printed, 2 bad arguments.");
    println!("--fault N: put a fault into the tester, which then has to find a difference:");
    for (number, fault) in (1..).zip(FAULTS) {
        println!("  {number:>2}  {fault}");
    }
}

/// The arguments, or what was expected instead.
fn asked(words: &[String]) -> Result<Asked, String> {
    let mut asked = Asked {
        calls: 1_000_000,
        seed: 1,
        fault: 0,
        library: String::new(),
        against: None,
    };
    let mut words = words.iter();
    while let Some(word) = words.next() {
        if !word.starts_with("--") && asked.library.is_empty() {
            asked.library = word.clone();
            continue;
        }
        let value = words.next();
        let number = value.and_then(|value| value.parse::<u64>().ok());
        let most = FAULTS.len();
        match (word.as_str(), number) {
            ("--calls", Some(calls)) => asked.calls = calls,
            ("--seed", Some(seed)) if seed > 0 => asked.seed = seed,
            ("--fault", Some(fault)) if (1..=most as u64).contains(&fault) => {
                asked.fault = fault as usize;
            }
            ("--against", _) if value.is_some() => asked.against = value.cloned(),
            ("--calls", _) => return Err("--calls and a number".to_string()),
            ("--seed", _) => return Err("--seed and a number from 1 up".to_string()),
            ("--fault", _) => return Err(format!("--fault and a number from 1 to {most}")),
            ("--against", _) => return Err("--against and a library".to_string()),
            _ => return Err(USAGE.to_string()),
        }
    }
    if asked.library.is_empty() {
        return Err(USAGE.to_string());
    }
    Ok(asked)
}

fn give_up(why: impl std::fmt::Display) -> ! {
    eprintln!("load: {why}");
    exit(2)
}

/// A library, for the whole run.
fn opened(name: &str) -> &'static Library {
    let library = Library::open(name).unwrap_or_else(|why| give_up(why));
    Box::leak(Box::new(library))
}

fn print_tally(tally: &Tally, seconds: f64) {
    for (name, calls) in FUNCTIONS.iter().zip(tally.calls) {
        println!("{name:<29}{calls:>9}");
    }
    println!(
        "{:<29}{:>9} in {seconds:.1} s",
        "all the same",
        tally.total()
    );
    for (number, calls) in tally.refusals.iter().enumerate().skip(1) {
        println!("refused by {number:<18}{calls:>9}");
    }
    println!("{:<29}{:>9}", "Z80: answered", tally.z80[0]);
    for number in [1, 7] {
        println!("Z80: refused by {number:<13}{:>9}", tally.z80[number]);
    }
    let watched = &tally.watched;
    println!("{:<29}{:>9}", "watchdog: ticks", watched.ticks);
    println!("{:<29}{:>9}", "resets begun", watched.begun);
    println!("{:<29}{:>9}", "resets ended", watched.ended);
    let (drawings, last) = (&tally.drawings, ROWS - 1);
    let middle = format!("wild: row 1 to {}", last - 1);
    println!("{:<29}{:>9}", "wild: row 0", drawings[0]);
    println!("{middle:<29}{:>9}", drawings[1..last].iter().sum::<u64>());
    println!("wild: row {last:<19}{:>9}", drawings[last]);
    println!("{:<29}{:>9}", "wild: no row", drawings[ROWS]);
    let [at_rest, scrolled] = tally.lists;
    println!("{:<29}{at_rest:>9}", "lists: at rest");
    println!("{:<29}{scrolled:>9}", "lists: scrolled");
    print_explained(tally);
    print_told(tally);
    print_indexed(tally);
}

fn print_explained(tally: &Tally) {
    let answers = ["refused", "cell", "fill", "past", "dark"];
    for (answer, times) in answers.into_iter().zip(tally.explained) {
        println!("explained: {answer:<18}{times:>9}");
    }
    let promises = &tally.promises;
    for (name, times) in [
        (
            "cells stored into, which no earlier row reads",
            promises.tried,
        ),
        ("  of these, which a later row reads", promises.read_later),
        (
            "cells stored into, which an earlier row reads",
            promises.read_earlier,
        ),
        (
            "  of these, which show the byte all the same",
            promises.shown_all_the_same,
        ),
    ] {
        println!("{name:<46}{times:>9}");
    }
}

fn print_told(tally: &Tally) {
    let names = [
        "viewers handed rows",
        "viewers handed no row",
        "a viewer's copy beside the kept picture",
        "a viewer's copy beside a fresh picture",
        "answers beside a run where no other viewer asks",
    ];
    for (name, times) in names.into_iter().zip(tally.told.counts()) {
        println!("{name:<48}{times:>9}");
    }
}

fn print_indexed(tally: &Tally) {
    let names = [
        "stores with a true index that names a row",
        "stores with a true index that names none",
        "stores with another index that names a row",
        "stores with another index that names none",
        "a kept index beside a fresh one",
        "a store with a true index beside one without",
    ];
    for (name, times) in names.into_iter().zip(tally.indexed.counts()) {
        println!("{name:<48}{times:>9}");
    }
}

/// What was not tried: the desk's promise, stores for which there is none, or something of the viewers or of the index.
fn untried(tally: &Tally) -> Option<&'static str> {
    let promises = &tally.promises;
    if promises.tried == 0 || promises.read_earlier == 0 {
        return Some("the place of a cell was never stored into, with and without an earlier row that reads it");
    }
    if tally.told.counts().contains(&0) {
        return Some(
            "a viewer was never handed rows, or none, or its copy or its answers were never compared",
        );
    }
    let indexed = tally.indexed.counts().contains(&0);
    indexed.then_some(
        "an index, true or not, never named a row, or none, or one that was kept was never compared",
    )
}

fn main() {
    let words: Vec<String> = std::env::args().skip(1).collect();
    if words.iter().any(|word| word == "--help") {
        return help();
    }
    let asked = asked(&words).unwrap_or_else(|expected| give_up(format!("expected {expected}")));
    let tried = Tried {
        library: opened(&asked.library),
        second: asked.against.as_deref().map(opened),
        fault: Fault(asked.fault),
    };
    let begun = Instant::now();
    // A seed of few bits would begin with numbers of few bits.
    let seed = asked.seed.wrapping_mul(0x9E37_79B9_7F4A_7C15) | 1;
    match load(asked.calls, seed, tried) {
        Ok(tally) => {
            print_tally(&tally, begun.elapsed().as_secs_f64());
            if let Some(why) = untried(&tally) {
                give_up(why);
            }
        }
        Err(script) => {
            println!("{script}");
            exit(1);
        }
    }
}
