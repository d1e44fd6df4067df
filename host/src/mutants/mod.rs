//! Mutants of the proved code: the code with one small change, run unproved against the stored runs (`make mutants`).
//! The code without its contracts is Rust, so a mutant is built by rustc.
pub mod build;
pub mod changes;
pub mod equivalent;
pub mod noticed;
pub mod questions;
pub mod rules;

use crate::rattle::code;
use std::collections::HashMap;

/// One file of a crate, changed.
#[derive(Clone)]
pub struct Mutant {
    pub crate_name: String,
    /// The file's path below the repository's root.
    pub file: String,
    /// The function or constant, and the line with its change.
    pub shown: String,
    /// The file's whole text, changed.
    pub text: String,
    /// The sentence of document 01 that the mutant breaks, if it was made for one.
    pub rule: Option<String>,
}

/// The line of a change, with the change written where it is.
fn marked(text: &str, change: &changes::Change) -> String {
    let start = text[..change.span.start].rfind('\n').map_or(0, |at| at + 1);
    let end = text[change.span.end..]
        .find('\n')
        .map_or(text.len(), |at| change.span.end + at);
    let old = text[change.span.clone()]
        .split_whitespace()
        .collect::<Vec<_>>()
        .join(" ");
    let before = text[start..change.span.start].trim_start();
    let after = &text[change.span.end..end];
    format!(
        "{}: {before}{{{old} -> {}}}{after}",
        change.within, change.new
    )
}

/// Every small change of a file.
pub fn of_file(crate_name: &str, file: &str, text: &str) -> Vec<Mutant> {
    let mut times: HashMap<String, usize> = HashMap::new();
    let mut mutants = Vec::new();
    for change in changes::changes(text, &code::tokens(text)) {
        let mut shown = marked(text, &change);
        let time = times.entry(shown.clone()).or_insert(0);
        *time += 1;
        if *time > 1 {
            shown = format!("{shown} #{time}");
        }
        let mut changed = text.to_string();
        changed.replace_range(change.span, &change.new);
        mutants.push(Mutant {
            crate_name: crate_name.to_string(),
            file: file.to_string(),
            shown,
            text: changed,
            rule: None,
        });
    }
    mutants
}

#[cfg(test)]
mod tests {
    use super::*;
    use crate::rattle::tree::files_of;
    use std::fs;
    use std::path::Path;

    /// The lines of each rule stand in the code, each once, and the mutants that are equivalent are mutants of it.
    #[test]
    fn the_lists_fit_the_code() {
        let root = Path::new(env!("CARGO_MANIFEST_DIR")).join("..");
        let read = |name: &str| fs::read_to_string(root.join(name)).unwrap();
        rules::read(&root, &read("host/mutants/rules.txt")).unwrap();
        let reasons = equivalent::Reasons::read(&read("host/mutants/equivalent.txt")).unwrap();
        let crates: Vec<String> = fs::read_dir(root.join("crates"))
            .unwrap()
            .map(|entry| entry.unwrap().file_name().into_string().unwrap())
            .collect();
        let mutants: Vec<Mutant> = crates
            .iter()
            .flat_map(|name| files_of(&root, name).unwrap())
            .flat_map(|file| of_file("", &file, &read(&file)))
            .collect();
        assert_eq!(reasons.of_none(&crates, &mutants), [""; 0]);
    }
}
