//! Whether a stored run notices a mutant: a program that is built of it writes something else.
use super::build::Shop;
use super::Mutant;
use std::fs::File;
use std::io::{self, Read};
use std::path::{Path, PathBuf};
use std::process::{Command, Stdio};
use std::thread;
use std::time::{Duration, Instant};

/// Longer than any run takes.
const LIMIT: Duration = Duration::from_secs(20);

/// The exit status of a Rust program that panics.
const PANIC: i32 = 101;

/// How a mutant was noticed, ahead of the case, if not by what it wrote.
pub const CRASH: &str = "a crash";
pub const ENDLESS: &str = "does not end";

pub enum Verdict {
    /// rustc does not take it, and says why.
    NoProgram(String),
    /// What noticed it.
    Noticed(String),
    Unnoticed,
}

/// A program with what it is given and what it must write.
pub struct Run {
    pub program: String,
    arguments: Vec<String>,
    input: Option<PathBuf>,
    folder: PathBuf,
    expected: Vec<u8>,
}

impl Run {
    /// What is stored beside a program's code.
    pub fn stored(root: &Path, program: &str) -> io::Result<Run> {
        let stored = root.join("crates").join(program);
        let arguments = std::fs::read_to_string(stored.join("args")).unwrap_or_default();
        let data = stored.join("data");
        Ok(Run {
            program: program.to_string(),
            arguments: arguments.lines().map(str::to_string).collect(),
            input: Some(stored.join("stdin")).filter(|input| input.exists()),
            folder: if data.exists() { data } else { stored.clone() },
            expected: std::fs::read(stored.join("stdout"))?,
        })
    }

    /// A run that is not stored, with its input in a file.
    pub fn made(program: &str, arguments: &[&str], input: &Path, expected: String) -> Run {
        Run {
            program: program.to_string(),
            arguments: arguments.iter().map(|word| word.to_string()).collect(),
            input: Some(input.to_path_buf()),
            folder: input.parent().unwrap_or(Path::new(".")).to_path_buf(),
            expected: expected.into_bytes(),
        }
    }

    /// The last remark ahead of a place of the output: the case that it is in. Where there is none, the arguments.
    fn case(&self, at: usize) -> String {
        let written =
            String::from_utf8_lossy(&self.expected[..at.min(self.expected.len())]).into_owned();
        let remark = written.lines().rfind(|line| line.starts_with('#'));
        let words = self.arguments.join(" ");
        format!("{} {}", self.program, remark.unwrap_or(&words))
    }

    /// Runs a program in the place of this one; what is noticed, if anything.
    pub fn noticed(&self, program: &Path) -> io::Result<Option<String>> {
        let input = match &self.input {
            Some(input) => Stdio::from(File::open(input)?),
            None => Stdio::null(),
        };
        let mut running = Command::new(program)
            .args(&self.arguments)
            .current_dir(&self.folder)
            .stdin(input)
            .stdout(Stdio::piped())
            .stderr(Stdio::null())
            .spawn()?;
        let most = self.expected.len() as u64 + 1;
        let output = running.stdout.take();
        let reader = thread::spawn(move || {
            let mut written = Vec::new();
            output.map(|output| output.take(most).read_to_end(&mut written));
            written
        });
        let start = Instant::now();
        while !reader.is_finished() && start.elapsed() < LIMIT {
            thread::sleep(Duration::from_millis(2));
        }
        let late = !reader.is_finished();
        let ended = if late { None } else { running.try_wait()? };
        running
            .kill()
            .or_else(|error| ended.map(|_| ()).ok_or(error))?;
        let status = running.wait()?;
        let written = reader.join().unwrap_or_default();
        let same = written
            .iter()
            .zip(&self.expected)
            .take_while(|(a, b)| a == b)
            .count();
        let case = self.case(same);
        if late {
            return Ok(Some(format!("{ENDLESS}: {case}")));
        }
        if written == self.expected {
            return Ok(None);
        }
        let crash = status.code() == Some(PANIC) && same == written.len();
        Ok(Some(if crash {
            format!("{CRASH}: {case}")
        } else {
            case
        }))
    }
}

/// Runs the programs that are made of a mutant, until one notices it.
pub fn verdict(shop: &Shop, runs: &[Run], mutant: &Mutant) -> io::Result<Verdict> {
    if let Err(why) = shop.put(mutant) {
        return Ok(Verdict::NoProgram(why));
    }
    let made = shop.tree.made_of(&mutant.crate_name);
    for program in made.iter().filter(|one| one.is_program) {
        if let Err(why) = shop.build(program) {
            return Ok(Verdict::NoProgram(why));
        }
        for run in runs.iter().filter(|run| run.program == program.name) {
            if let Some(case) = run.noticed(&shop.built(&run.program))? {
                return Ok(Verdict::Noticed(case));
            }
        }
    }
    Ok(Verdict::Unnoticed)
}
