//! A file of Rattle as a module of Rust: what the prover alone reads is taken away, remarks above items become doc
//! comments, and what Rust has to be told beside it is added outside of the functions: the modules that the file names,
//! that values which are copied are also compared and shown, and which functions are parts of the loops that call them.
use crate::rattle::code::{self, Token};
use crate::rattle::kit;
use std::ops::Range;

/// The text of a module. `own` is the module that a library's crate becomes, which the file names `crate`; `uses` are the
/// lines that name other modules, `in_loops` the functions that become parts of the loops that call them.
pub fn module(text: &str, own: Option<&str>, uses: &[String], in_loops: &[&str]) -> String {
    let mut writer = Writer {
        in_loops,
        out: Vec::new(),
        remark: Vec::new(),
        place: Place::Outside,
        begun: false,
        uses_at: 0,
    };
    let lines = code::lines(text);
    for (line, narrow) in lines.iter().zip(narrow(&lines)) {
        if line.ghost {
            if line.text.ends_with("};") {
                writer.close();
            }
            continue;
        }
        writer.line(line.text, narrow);
    }
    if let Some(own) = own {
        for line in writer.out.iter_mut() {
            *line = within(line, own);
        }
    }
    writer.begin(uses);
    writer.flush(false);
    let mut text = writer.out.join("\n");
    text.push('\n');
    text
}

/// Where a line stands.
enum Place {
    Outside,
    /// In the head of a function that is indented so.
    Head(String),
    /// In the body of one.
    Body(String),
}

struct Writer<'a> {
    in_loops: &'a [&'a str],
    out: Vec<String>,
    /// A remark whose item has not come yet.
    remark: Vec<&'a str>,
    place: Place,
    /// The file's own remark is over.
    begun: bool,
    /// Where the lines that name other modules go.
    uses_at: usize,
}

/// A line with another path in the place of one.
fn renamed(line: &str, path: &str, by: &str) -> String {
    let mut parts = line.split(path);
    let mut named = parts.next().unwrap_or_default().to_string();
    for part in parts {
        let whole = !named.ends_with(|c: char| c.is_ascii_alphanumeric() || c == '_');
        named += if whole { by } else { path };
        named += part;
    }
    named
}

/// A line that names its own crate, by the name of the module that this is, and of Rust's std the part that needs no
/// system.
fn within(line: &str, own: &str) -> String {
    let line = renamed(line, "crate::", &format!("crate::{own}::"));
    renamed(&line, "std::", "core::")
}

fn indent(line: &str) -> String {
    line[..line.len() - line.trim_start().len()].to_string()
}

/// Whether a function, at whose head the lines begin, has a `requires`: without it nothing holds a caller to it.
fn needs_its_caller(lines: &[code::Line]) -> bool {
    let head = |line: &&code::Line| line.ghost || !line.text.trim_end().ends_with(['{', '}']);
    is_function(lines[0].text)
        && lines
            .iter()
            .take_while(head)
            .any(|line| line.ghost && code::is_clause(line.text.trim_start(), "requires"))
}

/// The lines in the braces that a line opens.
fn braces(lines: &[code::Line], at: usize) -> Range<usize> {
    let close = format!("{}}}", indent(lines[at].text));
    let inside = lines[at + 1..].iter().take_while(|line| line.text != close);
    match lines[at].text.ends_with('{') {
        true => at + 1..at + 1 + inside.count(),
        false => at..at,
    }
}

/// The name that a text begins with.
fn named_first(text: &str) -> &str {
    let end = text.find(|c: char| !c.is_alphanumeric() && c != '_');
    &text[..end.unwrap_or(text.len())]
}

/// What a line declares by a word.
fn declares<'a>(line: &'a str, word: &str) -> Option<&'a str> {
    let line = line.trim_start();
    let line = line.strip_prefix("pub ").unwrap_or(line);
    line.strip_prefix(word)?.strip_prefix(' ').map(named_first)
}

fn is_ghost(line: &code::Line, of: &str) -> bool {
    let text = line.text.trim_start();
    let text = text.strip_prefix("pub ").unwrap_or(text);
    text.strip_prefix("ghost ")
        .is_some_and(|text| text.starts_with(of))
}

/// Whether the model of a type has an invariant.
fn has_invariant(lines: &[code::Line], name: &str) -> bool {
    let is_model = |line: &code::Line| {
        let model = line.text.split_once(" Model for ");
        model.is_some_and(|(_, of)| named_first(of) == name)
    };
    let mut models = (0..lines.len()).filter(|at| is_model(&lines[*at]));
    models.any(|at| {
        let mut model = lines[braces(lines, at)].iter();
        model.any(|line| is_ghost(line, "invariant"))
    })
}

/// Which lines are public in this crate alone, since what the prover alone reads holds their users to something: a
/// function with a `requires`, a trait that has one, and the fields of a struct that has a ghost part, or whose model
/// has an invariant.
fn narrow(lines: &[code::Line]) -> Vec<bool> {
    let mut narrow: Vec<bool> = (0..lines.len())
        .map(|at| needs_its_caller(&lines[at..]))
        .collect();
    for (at, line) in lines.iter().enumerate() {
        let inside = braces(lines, at);
        if let Some(name) = declares(line.text, "struct") {
            let has_part = lines[inside.clone()].iter().any(|line| is_ghost(line, ""));
            if has_part || has_invariant(lines, name) {
                narrow[inside].fill(true);
            }
        } else if declares(line.text, "trait").is_some() {
            let asks = |line: &code::Line| code::is_clause(line.text.trim_start(), "requires");
            narrow[at] = lines[inside].iter().any(|line| line.ghost && asks(line));
        }
    }
    narrow
}

/// A line that says `pub`, of this crate alone.
fn in_crate(line: &str) -> String {
    match line.trim_start().strip_prefix("pub ") {
        Some(rest) => format!("{}pub(crate) {rest}", indent(line)),
        None => line.to_string(),
    }
}

fn is_function(line: &str) -> bool {
    let line = line.trim_start();
    let line = line.strip_prefix("pub ").unwrap_or(line);
    let line = line.strip_prefix("extern \"C\" ").unwrap_or(line);
    line.starts_with("fn ")
}

/// The name of the function whose head begins with a line.
fn name(line: &str) -> &str {
    let (_, name) = line.split_once("fn ").unwrap_or_default();
    name.split_once(['(', '<']).map_or(name, |(name, _)| name)
}

impl<'a> Writer<'a> {
    fn line(&mut self, line: &'a str, narrow: bool) {
        match &self.place {
            Place::Body(indent) => {
                let over = line == format!("{indent}}}");
                self.out.push(line.to_string());
                if over {
                    self.place = Place::Outside;
                }
            }
            Place::Head(indent) => {
                let indent = indent.clone();
                if matches!(line.trim_start(), "{" | "{}") {
                    self.open(line.trim_start());
                } else {
                    self.out.push(line.to_string());
                }
                if line.ends_with('{') {
                    self.place = Place::Body(indent);
                } else if line.ends_with("{}") {
                    self.place = Place::Outside;
                }
            }
            Place::Outside => self.outside(line, narrow),
        }
    }

    /// The brace that opens a body goes after the head, from which the contract was taken; so does a body of nothing.
    fn open(&mut self, brace: &str) {
        if let Some(head) = self.out.last_mut() {
            head.push(' ');
            head.push_str(brace);
        }
    }

    /// A function of a trait may have no body: its head ends where its contract does.
    fn close(&mut self) {
        if let Place::Head(_) = self.place {
            if let Some(head) = self.out.last_mut() {
                head.push(';');
            }
            self.place = Place::Outside;
        }
    }

    fn outside(&mut self, line: &'a str, narrow: bool) {
        if line.trim_start().starts_with("//") {
            self.remark.push(line);
            return;
        }
        if !self.begun {
            self.begun = true;
            for line in self.remark.drain(..) {
                self.out.push(line.replacen("//", "//!", 1));
            }
            self.uses_at = self.out.len();
        }
        self.flush(!line.trim().is_empty());
        if line == "#[unsafe(no_mangle)]" {
            return;
        }
        let begins = |last: &String| last.is_empty() || last.ends_with('{');
        if line.is_empty() && self.out.last().map_or(true, begins) {
            return;
        }
        if line.trim_start() == "}" && self.out.last().is_some_and(String::is_empty) {
            self.out.pop();
        }
        if line.trim_start().starts_with("#[derive(") {
            self.out.extend(code::derive(line));
            return;
        }
        let mut text = code::line_of_rust(line).replacen("pub extern \"C\" fn", "pub fn", 1);
        if narrow {
            text = in_crate(&text);
        }
        if is_function(line) {
            if self.in_loops.contains(&name(line)) {
                self.out.push("#[inline(always)]".to_string());
            }
            self.place = match line.chars().last() {
                Some(';') => Place::Outside,
                _ if line.ends_with("{}") => Place::Outside,
                Some('{') => Place::Body(indent(line)),
                _ => Place::Head(indent(line)),
            };
        }
        self.out.push(text);
    }

    /// Adds, after the file's own remark, what the module uses.
    fn begin(&mut self, uses: &[String]) {
        let mut lines = uses.to_vec();
        let parted = self.out.get(self.uses_at).is_some_and(String::is_empty);
        if !lines.is_empty() && !parted {
            lines.push(String::new());
        }
        self.out.splice(self.uses_at..self.uses_at, lines);
    }

    /// The remark that was kept, as a doc comment if an item follows.
    fn flush(&mut self, item: bool) {
        for line in self.remark.drain(..) {
            let line = if item {
                line.replacen("//", "///", 1)
            } else {
                line.to_string()
            };
            self.out.push(line);
        }
    }
}

/// The crates among `needs` that the code of a file names.
pub fn named<'a>(text: &str, needs: &'a [String]) -> Vec<&'a str> {
    let tokens = code::tokens(text);
    let word = |token: &Token| &text[token.span.clone()];
    let is_named = |need: &&String| {
        tokens.windows(2).enumerate().any(|(at, pair)| {
            let before = at.checked_sub(1).map(|at| word(&tokens[at]));
            word(&pair[0]) == need.as_str() && word(&pair[1]) == "::" && before != Some("::")
        })
    };
    let named = needs.iter().filter(is_named);
    named.map(String::as_str).collect()
}

/// What the code of a file names of the kit's std that Rust has from console.
pub fn of_console(text: &str) -> Vec<&str> {
    kit::names(&code::words(text))
}

#[cfg(test)]
mod tests {
    use super::*;

    const FILE: &str = "\
// A part of the machine.
#![tactic(auto)]

ghost use a.{b};
use lent::ByteRead;

#[rattlefmt::skip]
const A: [u8; 2] = [
    1, 2,
];

// Of two bytes.
#[repr(C)]
#[derive(Clone, Copy)]
pub struct S {
    // The first.
    pub a: u8,
}

#[derive(Drop)]
struct Open {
    file: File,
}

// One more.
#[tactic(
    auto,
    unfolding(crate::specs::M::g),
)]
pub fn f(a: u8) -> u8
    requires unit { a ≡ Unit {0} }
    ensures { result
        ≡ a }
{
    // Less.
    other::g(a) + lent::ONE
}

fn h() {
    f(1);
}

trait Change {
    ghost changed: { Self → ℕ };

    fn of(self, a: u8) -> u8
        ensures { result ≡ changed self };

    fn none(self) {}
}
";

    #[test]
    fn a_file_as_a_module() {
        let wanted = "\
//! A part of the machine.
use crate::lent;

use lent::ByteRead;

const A: [u8; 2] = [
    1, 2,
];

/// Of two bytes.
#[repr(C)]
#[derive(Clone, Copy, Debug, PartialEq, Eq)]
pub struct S {
    /// The first.
    pub a: u8,
}

struct Open {
    file: File,
}

/// One more.
#[inline(always)]
pub(crate) fn f(a: u8) -> u8 {
    // Less.
    other::g(a) + lent::ONE
}

fn h() {
    f(1);
}

trait Change {
    fn of(self, a: u8) -> u8;

    fn none(self) {}
}
";
        let uses = ["use crate::lent;".to_string()];
        assert_eq!(module(FILE, None, &uses, &["f", "g"]), wanted);
    }

    #[test]
    fn a_trait() {
        let file = "// A part.\npub trait Change {\n    ghost done: { ℕ };\n\n    fn of(self, all: &[u8; 2]) -> u8\n        \
                    requires { 1 }\n        ensures { result\n            ≡ 1 };\n\n    fn other(self);\n}\n\nstruct A {\n    \
                    a: u8,\n}\n";
        let wanted = "//! A part.\npub(crate) trait Change {\n    fn of(self, all: &[u8; 2]) -> u8;\n\n    fn other(self);\n}\n\n\
                      struct A {\n    a: u8,\n}\n";
        assert_eq!(module(file, None, &[], &[]), wanted);
        assert!(super::super::same::compare(file, wanted, None).is_ok());
        let other = wanted.replacen("a: u8,\n", "a: u8,\n    b: u8,\n", 1);
        assert!(super::super::same::compare(file, &other, None).is_err());
    }

    #[test]
    fn fields_that_have_to_fit() {
        let file = "\
// A part.
pub struct Page<'a> {
    // At most 132.
    pub columns: usize,
    screen: &'a [u8],
    pub ghost few: { columns ≤ 132 },
}

pub struct Place {
    pub at: u16,
}

pub struct Places {
    pub at: u16,
}

impl<const N: usize> Model for Place<N> {
    ghost Value = { ℕ };

    ghost invariant = { λ place. place.at < 3 };
}

impl Model for Places {
    ghost Value = { ℕ };
}
";
        let wanted = "\
//! A part.
pub struct Page<'a> {
    /// At most 132.
    pub(crate) columns: usize,
    screen: &'a [u8],
}

pub struct Place {
    pub(crate) at: u16,
}

pub struct Places {
    pub at: u16,
}
";
        let made = module(file, None, &[], &[]);
        assert_eq!(made.trim_end(), wanted.trim_end());
    }

    #[test]
    fn a_file_that_names_its_own_crate() {
        let file =
            "// A part.\nuse std::fmt;\nuse crate::{Head, Place};\n\nfn f() {\n    crate::g(a_crate::h())\n}\n";
        let wanted =
            "//! A part.\nuse crate::lent;\n\nuse core::fmt;\nuse crate::chain::{Head, Place};\n\nfn f() {\n    \
                      crate::chain::g(a_crate::h())\n}\n";
        let uses = ["use crate::lent;".to_string()];
        assert_eq!(module(file, Some("chain"), &uses, &[]), wanted);
    }

    #[test]
    fn crates_that_a_file_names() {
        let needs = ["chain", "lent", "other"].map(String::from);
        assert_eq!(named(FILE, &needs), ["lent", "other"]);
    }
}
