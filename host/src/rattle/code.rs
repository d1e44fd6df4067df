//! The code in a file of Rattle: what the prover alone reads taken away, the rest as tokens.
use super::kit;
use std::ops::Range;

#[derive(Clone, Copy, PartialEq, Debug)]
pub enum Kind {
    Word,
    Number,
    Sign,
}

#[derive(Clone, Debug)]
pub struct Token {
    pub kind: Kind,
    /// Where it stands in the file.
    pub span: Range<usize>,
    /// The function or the constant that it is a part of.
    pub within: String,
}

const SIGNS: [&str; 20] = [
    "..=", "::", "->", "=>", "==", "!=", "<=", ">=", "&&", "||", "+=", "-=", "*=", "<<", ">>",
    "..", "/=", "%=", "|=", "&=",
];

/// Attributes that the kit alone reads: how it lays a line out, and what its prover tries.
const ATTRIBUTES: [&str; 3] = ["#[rattlefmt::skip]", "#![tactic(", "#[tactic("];

/// How the kit's std has a type shown as text, and how Rust's has it.
pub const SHOWN: [(&str, &str); 1] = [(
    "fn fmt<W: fmt::Write>(&self, f: &mut fmt::Formatter<W>) -> fmt::Result",
    "fn fmt(&self, f: &mut fmt::Formatter<'_>) -> fmt::Result",
)];

/// A line of Rattle as Rust has it.
pub fn line_of_rust(line: &str) -> String {
    SHOWN.iter().fold(line.to_string(), |line, (kit, rust)| {
        line.replacen(kit, rust, 1)
    })
}

/// What Rust derives where the kit derives what a line says: the same without `Drop`, which Rust has of itself. Values
/// that are copied are compared and shown too.
pub fn derive(line: &str) -> Option<String> {
    let list = line.trim_start().strip_prefix("#[derive(")?;
    let list = list.strip_suffix(")]")?.split(", ");
    let mut names: Vec<&str> = list.filter(|name| *name != "Drop").collect();
    if names.contains(&"Copy") {
        for more in ["Debug", "PartialEq", "Eq"] {
            if !names.contains(&more) {
                names.push(more);
            }
        }
    }
    let indent = &line[..line.len() - line.trim_start().len()];
    match names.join(", ") {
        names if names.is_empty() => None,
        names => Some(format!("{indent}#[derive({names})]")),
    }
}

/// The bytes of what the prover alone reads of a type, a trait or an `impl`: a ghost part with its sign, or the `impl` of
/// a model.
fn ghost_item(code: &str) -> Option<usize> {
    let line = code.lines().next().unwrap_or_default();
    if line.starts_with("ghost use ") || line == "use std::marker::Model;" {
        return Some(line.len());
    }
    if line.starts_with("ghost ") || line.starts_with("pub ghost ") {
        let end = block(code, '{', '}');
        return Some(end + usize::from(code[end..].starts_with([',', ';'])));
    }
    let is_model = line.starts_with("impl") && line.contains(" Model for ");
    is_model.then(|| block(code, '{', '}'))
}

/// Whether a clause of a contract begins here: `ensures { .. }`, or one that has a name, `ensures upper_bound { .. }`.
pub fn is_clause(code: &str, kind: &str) -> bool {
    let rest = match code.strip_prefix(kind) {
        Some(rest) => rest.strip_prefix(' '),
        None => None,
    };
    rest.is_some_and(|rest| {
        let name = rest.trim_start_matches(is_word);
        rest.starts_with('{') || name.len() < rest.len() && name.starts_with(" {")
    })
}

/// The `ghost use` lines, the ghost parts and the contracts, and the attributes that the kit alone reads.
fn ghost_parts(text: &str) -> Vec<Range<usize>> {
    let mut parts: Vec<Range<usize>> = Vec::new();
    let mut at = 0;
    for line in text.split_inclusive('\n') {
        let code = line.trim_start();
        let from = at + line.len() - code.len();
        at += line.len();
        if parts.last().is_some_and(|part| from < part.end) {
            continue;
        }
        if let Some(bytes) = ghost_item(&text[from..]) {
            parts.push(from..from + bytes);
        } else if ATTRIBUTES.iter().any(|begin| code.starts_with(begin)) {
            parts.push(from..from + block(&text[from..], '[', ']'));
        } else if is_clause(code, "requires") || is_clause(code, "ensures") {
            parts.push(from..from + block(&text[from..], '{', '}'));
        }
    }
    parts
}

/// The bytes up to the end of the first block in these brackets.
fn block(text: &str, open: char, close: char) -> usize {
    let mut depth = 0;
    for (at, character) in text.char_indices() {
        if character == open {
            depth += 1;
        } else if character == close {
            depth -= 1;
            if depth == 0 {
                return at + 1;
            }
        }
    }
    text.len()
}

/// A line of a file, and whether the kit alone reads it.
pub struct Line<'a> {
    pub text: &'a str,
    pub ghost: bool,
}

/// The lines of a file. A contract begins and ends with a line.
pub fn lines(text: &str) -> Vec<Line<'_>> {
    let ghosts = ghost_parts(text);
    let mut lines = Vec::new();
    let mut at = 0;
    for line in text.split_inclusive('\n') {
        let code = at + line.len() - line.trim_start_matches(' ').len();
        at += line.len();
        lines.push(Line {
            text: line.trim_end_matches('\n'),
            ghost: ghosts.iter().any(|part| part.contains(&code)),
        });
    }
    lines
}

/// The words and signs of a file's code.
pub fn words(text: &str) -> Vec<&str> {
    let tokens = tokens(text);
    tokens
        .iter()
        .map(|token| &text[token.span.clone()])
        .collect()
}

/// What a file has to be told of crate console, whose names stand for some of the kit's std.
fn uses(text: &str) -> String {
    match kit::names(&words(text)).join(", ") {
        names if names.is_empty() => names,
        names => format!("use console::{{{names}}};\n"),
    }
}

/// The file as Rust: without what the kit alone reads, with a `main` that takes nothing, and with what takes slices as
/// arrays where Rust has not that of itself.
pub fn rust(text: &str) -> String {
    let mut code = uses(text);
    let mut at = 0;
    for part in ghost_parts(text) {
        code.push_str(&text[at..part.start]);
        at = part.end;
    }
    code.push_str(&text[at..]);
    if code.contains(kit::MAIN) {
        code = code.replacen(kit::MAIN, kit::RENAMED, 1) + kit::CALLER;
    }
    if kit::takes_arrays(&words(text)) {
        code = code + "\n" + kit::ARRAYS;
    }
    let lines = code.lines().filter_map(|line| {
        if line.trim_start().starts_with("#[derive(") {
            return derive(line);
        }
        Some(line_of_rust(line))
    });
    lines.flat_map(|line| [line, "\n".to_string()]).collect()
}

fn is_word(character: char) -> bool {
    character.is_ascii_alphanumeric() || character == '_'
}

/// The bytes of what stands at the beginning of a text, and whether it is a token.
fn first(text: &str) -> (usize, Option<Kind>) {
    let character = text.chars().next().unwrap_or(' ');
    if text.starts_with("//") {
        return (text.find('\n').unwrap_or(text.len()), None);
    }
    if text.starts_with("#[") {
        return (text.find(']').map_or(text.len(), |end| end + 1), None);
    }
    if text.starts_with("b\"") || text.starts_with("b'") {
        let quote = text[1..2].chars().next();
        let mut escaped = false;
        for (at, c) in text.char_indices().skip(2) {
            if !escaped && Some(c) == quote {
                return (at + 1, None);
            }
            escaped = c == '\\' && !escaped;
        }
        return (text.len(), None);
    }
    if is_word(character) {
        let end = text.find(|c| !is_word(c)).unwrap_or(text.len());
        let number = character.is_ascii_digit();
        return (end, Some(if number { Kind::Number } else { Kind::Word }));
    }
    if character.is_whitespace() {
        return (character.len_utf8(), None);
    }
    let sign = SIGNS.iter().find(|sign| text.starts_with(**sign));
    (
        sign.map_or(character.len_utf8(), |sign| sign.len()),
        Some(Kind::Sign),
    )
}

pub fn tokens(text: &str) -> Vec<Token> {
    let ghosts = ghost_parts(text);
    let mut tokens: Vec<Token> = Vec::new();
    let mut within = String::new();
    let mut at = 0;
    while at < text.len() {
        if let Some(part) = ghosts.iter().find(|part| part.contains(&at)) {
            at = part.end;
            continue;
        }
        let (bytes, kind) = first(&text[at..]);
        let span = at..at + bytes;
        at = span.end;
        if let Some(kind) = kind {
            let before = tokens.last().map(|token: &Token| &text[token.span.clone()]);
            if before == Some("fn") || before == Some("const") {
                within = text[span.clone()].to_string();
            }
            let within = within.clone();
            tokens.push(Token { kind, span, within });
        }
    }
    tokens
}

#[cfg(test)]
mod tests {
    use super::*;

    const FILE: &str = "\
// A file.
#![tactic(auto)]

ghost use a.{b};
#[rattlefmt::skip]
#[repr(C)]
#[derive(Clone, Copy)]
pub struct S {
    pub a: u8,
}

#[tactic(
    auto,
    unfolding(crate::specs::M::f),
)]
pub fn f(a: u8) -> u8
    requires { a ≡ Unit {0} }
    ensures value { result
        ≡ a }
{
    a <= b'+' // less
}
";

    #[test]
    fn contracts_are_taken_away() {
        let code = rust(FILE);
        assert!(!code.contains('≡') && !code.contains("ghost") && !code.contains("skip"));
        assert!(!code.contains("tactic") && !code.contains("unfolding"));
        assert!(code.contains("#[derive(Clone, Copy, Debug, PartialEq, Eq)]\npub struct S {"));
        assert_eq!(code.matches("derive").count(), 1);
        assert!(code.contains("pub fn f(a: u8) -> u8"));
        assert!(code.contains("    a <= b'+' // less\n}"));
    }

    #[test]
    fn what_is_only_let_go_is_not_copied() {
        let code = rust("#[derive(Drop)]\npub enum Input {\n    Named(File),\n}\n");
        assert!(code.contains("pub enum Input {") && !code.contains("derive"));
    }

    #[test]
    fn ghost_parts_of_types_are_taken_away() {
        let text = "\
use std::marker::Model;

pub struct Page<'a> {
    pub columns: usize,
    pub ghost few: { columns ≤ 132 },
}

impl Model for Place {
    ghost Value = { ℕ };
}

impl From<u8> for Kind {
    ghost from_gives = { λ n. n };
    fn from(n: u8) -> Self {
        Kind(n)
    }
}
";
        let code = rust(text);
        assert!(!code.contains("ghost") && !code.contains("Model") && !code.contains("≤"));
        assert!(
            code.contains("    pub columns: usize,\n")
                && code.contains("impl From<u8> for Kind {\n")
        );
        let signs = tokens(text)
            .into_iter()
            .filter(|token| &text[token.span.clone()] == ",");
        assert_eq!(signs.count(), 1);
    }

    #[test]
    fn slices_as_arrays() {
        let code = rust("fn f(a: &[u8]) -> Option<&[u8; 2]> {\n    a.as_array()\n}\n");
        assert!(code.ends_with(&format!("    a.as_array()\n}}\n\n{}", kit::ARRAYS)));
    }

    #[test]
    fn what_is_derived() {
        let copied = derive("#[derive(Clone, Copy, Hash)]");
        assert_eq!(
            copied.as_deref(),
            Some("#[derive(Clone, Copy, Hash, Debug, PartialEq, Eq)]")
        );
        assert_eq!(derive("#[derive(Drop)]"), None);
        assert_eq!(
            derive("    #[derive(Debug, Drop)]").as_deref(),
            Some("    #[derive(Debug)]")
        );
    }

    #[test]
    fn a_clause_may_have_a_name() {
        assert!(is_clause("ensures { a }", "ensures"));
        assert!(is_clause("requires upper_bound { a }", "requires"));
        assert!(!is_clause("requires upper_bound { a }", "ensures"));
        assert!(!is_clause("ensures.push(a);", "ensures"));
        assert!(!is_clause("requires = a { b }", "requires"));
    }

    #[test]
    fn tokens_are_of_the_code_alone() {
        let tokens = tokens(FILE);
        let texts: Vec<&str> = tokens.iter().map(|t| &FILE[t.span.clone()]).collect();
        let start = [
            "pub", "struct", "S", "{", "pub", "a", ":", "u8", ",", "}", "pub", "fn", "f",
        ];
        assert_eq!(texts[..13], start);
        assert_eq!(texts[texts.len() - 4..], ["{", "a", "<=", "}"]);
        assert_eq!(tokens.last().unwrap().within, "f");
    }
}
