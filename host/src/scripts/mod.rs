//! The long parts of the monitor's scripts, made from seeds: the same lines every time.
mod aimed;
mod indexed;
mod lengths;
mod lines;
mod ports;
mod run;
mod strewn;

use crate::chain::{PLACES, RECORD, ROWS};
use crate::monitor::lines::NAMES;
use crate::monitor::Session;
use crate::trial::next;

/// A script that is being written, and the session that it has led to.
pub struct Script {
    text: String,
    session: Session,
    seed: u32,
}

impl Script {
    /// A script with its first remark, from power-up and memories of 00.
    fn new(seed: u32, remark: &str) -> Self {
        let mut script = Self {
            text: String::new(),
            session: Session::power_up(),
            seed,
        };
        script.remark(remark);
        script.line("power");
        for (name, _) in NAMES {
            script.line(&format!("fill {name} 00"));
        }
        script
    }

    /// A line, and its answer.
    fn line(&mut self, line: &str) -> String {
        self.text.push_str(line);
        self.text.push('\n');
        let answer = self.session.answer(line.as_bytes());
        String::from_utf8_lossy(&answer).into_owned()
    }

    fn lines(&mut self, lines: &[&str]) {
        for line in lines {
            self.line(line);
        }
    }

    fn remark(&mut self, words: &str) {
        self.line(&format!("# {words}"));
    }

    fn columns(&mut self, columns: usize) {
        self.line(match columns {
            80 => "port 04 00",
            _ => "port 04 10",
        });
    }

    /// The kept picture's sum and then that of one drawn afresh.
    fn compare(&mut self) {
        self.lines(&["sums", "draw", "sums"]);
    }

    /// The sums with the kept picture and the kept index, and then with both made afresh.
    fn compare_with_index(&mut self) {
        self.lines(&["sums", "draw", "index", "sums"]);
    }

    fn next(&mut self) -> usize {
        self.seed = next(self.seed);
        (self.seed >> 16) as usize
    }
}

/// How many cells a row of a kind can have.
fn capacity(columns: usize, kind: u8) -> usize {
    match kind & 3 {
        3 => columns,
        _ => columns / 2,
    }
}

/// The generated scripts by name.
pub fn all() -> Vec<(&'static str, String)> {
    vec![
        ("04-lengths.txt", lengths::script().text),
        ("08-strewn.txt", strewn::script().text),
        ("11-every-port.txt", ports::script().text),
        ("12-run.txt", run::script().text),
        ("13-scan-lines.txt", lines::script().text),
        ("24-indexed.txt", indexed::script().text),
    ]
}
