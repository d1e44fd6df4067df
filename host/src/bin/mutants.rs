//! Makes mutants of the code and runs each, unproved, against the stored runs. Says which no run notices.
//! usage: mutants ROOT [CRATE...]
use host::mutants::build::Shop;
use host::mutants::equivalent::Reasons;
use host::mutants::noticed::{verdict, Run, Verdict, CRASH, ENDLESS};
use host::mutants::{of_file, questions, rules, Mutant};
use host::rattle::tree::{files_of, Tree};
use std::fs;
use std::path::{Path, PathBuf};
use std::process::exit;
use std::sync::Mutex;
use std::thread;

/// In the order in which they are asked: the scripts try the most.
const PROGRAMS: [&str; 4] = ["monitor", "rows", "tube", "why"];

fn give_up(why: impl std::fmt::Display) -> ! {
    eprintln!("mutants: {why}");
    exit(2)
}

fn expect<T, E: std::fmt::Display>(answer: Result<T, E>) -> T {
    answer.unwrap_or_else(|why| give_up(why))
}

/// The mutants made by hand, then those made by rule, of some crates.
fn mutants_of(root: &Path, crates: &[String]) -> Vec<Mutant> {
    let by_hand = expect(fs::read_to_string(root.join("host/mutants/rules.txt")));
    let mut mutants = expect(rules::read(root, &by_hand));
    mutants.retain(|mutant| crates.contains(&mutant.crate_name));
    for name in crates {
        for file in expect(files_of(root, name)) {
            let text = expect(fs::read_to_string(root.join(&file)));
            mutants.extend(of_file(name, &file, &text));
        }
    }
    mutants
}

/// The verdict on each mutant, by as many workers as there are processors.
fn verdicts(shop: &Shop, runs: &[Run], mutants: &[Mutant]) -> Vec<Verdict> {
    let workers = thread::available_parallelism().map_or(1, |n| n.get());
    let next = Mutex::new(mutants.iter().enumerate());
    let done = Mutex::new(Vec::new());
    thread::scope(|scope| {
        for worker in 0..workers {
            let own = expect(shop.copy_to(shop.folder.with_file_name(format!("worker{worker}"))));
            let (next, done) = (&next, &done);
            scope.spawn(move || loop {
                let (number, mutant) = match next.lock().unwrap().next() {
                    Some(one) => one,
                    None => return,
                };
                let one = expect(verdict(&own, runs, mutant));
                expect(own.restore(shop, mutant));
                let mut done = done.lock().unwrap();
                done.push((number, one));
                if done.len() % 50 == 0 {
                    eprintln!("{} of {} mutants", done.len(), mutants.len());
                }
            });
        }
    });
    let mut done = done.into_inner().unwrap();
    done.sort_by_key(|(number, _)| *number);
    done.into_iter().map(|(_, one)| one).collect()
}

/// What was said of the mutants so far.
#[derive(Default)]
struct Tally {
    not_taken: usize,
    noticed: usize,
    crashes: usize,
    endless: usize,
    equivalent: usize,
    unnoticed: Vec<Mutant>,
    problems: Vec<String>,
    list: String,
}

impl Tally {
    fn add(&mut self, mutant: &Mutant, verdict: Verdict, reasons: &Reasons) {
        let line = match &mutant.rule {
            Some(rule) => format!("{}\n  {}\n  {rule}", mutant.file, mutant.shown),
            None => format!("{}\n  {}", mutant.file, mutant.shown),
        };
        let said = match verdict {
            Verdict::NoProgram(why) => {
                self.not_taken += 1;
                if mutant.rule.is_some() {
                    self.problems
                        .push(format!("rustc does not take\n{line}\n{why}"));
                }
                "rustc does not take it".to_string()
            }
            Verdict::Noticed(case) => {
                self.noticed += 1;
                self.crashes += usize::from(case.starts_with(CRASH));
                self.endless += usize::from(case.starts_with(ENDLESS));
                case
            }
            Verdict::Unnoticed => self.unnoticed(mutant, &line, reasons),
        };
        self.list.push_str(&format!("{line}\n    {said}\n"));
    }

    /// A mutant that no run notices. One that was made for a rule has to be noticed.
    fn unnoticed(&mut self, mutant: &Mutant, line: &str, reasons: &Reasons) -> String {
        self.unnoticed.push(mutant.clone());
        match reasons.of(mutant) {
            Some(reason) if mutant.rule.is_none() => {
                self.equivalent += 1;
                format!("equivalent: {reason}")
            }
            _ => {
                self.problems.push(format!("no run notices\n{line}"));
                "NOT NOTICED".to_string()
            }
        }
    }
}

fn main() {
    let words: Vec<String> = std::env::args().skip(1).collect();
    let root = match words.first() {
        Some(root) if Path::new(root).join("crates.txt").exists() => PathBuf::from(root),
        _ => give_up("usage: mutants ROOT [CRATE...], where ROOT is the folder of crates.txt"),
    };
    let root = expect(root.canonicalize());
    let tree = expect(Tree::of(&root, &PROGRAMS));
    let all: Vec<String> = tree.libraries().map(|one| one.name.clone()).collect();
    let crates = if words.len() > 1 {
        words[1..].to_vec()
    } else {
        all.clone()
    };
    if let Some(other) = crates.iter().find(|name| !all.contains(name)) {
        let there = all.join(" ");
        give_up(format!(
            "expected a crate that a program is made of, not {other}; there are {there}"
        ));
    }
    let reasons = expect(fs::read_to_string(root.join("host/mutants/equivalent.txt")));
    let reasons = expect(Reasons::read(&reasons));
    let mutants = mutants_of(&root, &crates);
    let shop = expect(Shop::open(&root, &tree, root.join("target/mutants/right")));
    let mut runs: Vec<Run> = PROGRAMS
        .iter()
        .map(|name| expect(Run::stored(&root, name)))
        .collect();
    runs.extend(expect(questions::runs(&root.join("target/mutants/asked"))));
    for run in &runs {
        if let Some(case) = expect(run.noticed(&shop.built(&run.program))) {
            give_up(format!(
                "the code as it is differs from the stored run: {case}"
            ));
        }
    }

    let mut tally = Tally::default();
    for (mutant, verdict) in mutants.iter().zip(verdicts(&shop, &runs, &mutants)) {
        tally.add(mutant, verdict, &reasons);
    }
    let stale = reasons.of_none(&crates, &tally.unnoticed).into_iter();
    let stale = stale.map(|one| {
        format!("equivalent.txt has a mutant that is not there, or that a run notices\n{one}")
    });
    tally.problems.extend(stale);
    expect(fs::write(root.join("target/mutants/list.txt"), &tally.list));
    for one in &tally.problems {
        println!("{one}");
    }
    println!(
        "{} mutants of {} crates, each in target/mutants/list.txt",
        mutants.len(),
        crates.len()
    );
    println!("rustc does not take: {}", tally.not_taken);
    println!(
        "a stored run notices: {}, of them {} by a crash, {} that do not end",
        tally.noticed, tally.crashes, tally.endless
    );
    println!("equivalent, with a reason: {}", tally.equivalent);
    println!("problems: {}", tally.problems.len());
    exit(i32::from(!tally.problems.is_empty()));
}
