//! The mutants that were made by hand, one at least for each rule of document 01: host/mutants/rules.txt.
//! An entry is the sentence in quotes, the file, lines of it after `- `, and after `+ ` as many lines in their
//! places, or any number in the place of one. A blank line ends it.
use super::Mutant;
use std::path::Path;

/// The lines of an entry that begin with a sign, without it.
fn after<'a>(sign: &'a str, lines: &'a [&str]) -> Vec<&'a str> {
    lines
        .iter()
        .filter_map(|line| line.strip_prefix(sign))
        .collect()
}

/// A text with one line, which it has once, replaced.
fn replaced(text: &str, old: &str, new: &[&str]) -> Result<String, String> {
    if text.lines().filter(|line| *line == old).count() != 1 {
        return Err(format!("expected once as a line: {old}"));
    }
    let lines = text.lines().flat_map(|line| {
        if line == old {
            new.to_vec()
        } else {
            vec![line]
        }
    });
    Ok(lines.flat_map(|line| [line, "\n"]).collect())
}

fn entry(root: &Path, lines: &[&str]) -> Result<Mutant, String> {
    let rule = lines[0].to_string();
    let file = lines.get(1).copied().unwrap_or_default();
    let wrong = |why: String| format!("rules.txt: {rule}: {file}: {why}");
    let mut text =
        std::fs::read_to_string(root.join(file)).map_err(|error| wrong(error.to_string()))?;
    let (old, new) = (after("- ", lines), after("+ ", lines));
    if !rule.starts_with('"') || old.is_empty() || old.len() + new.len() + 2 != lines.len() {
        return Err(wrong(
            "expected a sentence, a file, lines with - and lines with +".to_string(),
        ));
    }
    if old.len() == 1 {
        text = replaced(&text, old[0], &new).map_err(wrong)?;
    } else if old.len() == new.len() {
        for (old, new) in old.iter().zip(&new) {
            text = replaced(&text, old, &[new]).map_err(wrong)?;
        }
    } else {
        return Err(wrong("expected as many lines with + as with -".to_string()));
    }
    let shown = |lines: &[&str]| {
        lines
            .iter()
            .map(|line| line.trim())
            .collect::<Vec<_>>()
            .join(" ")
    };
    Ok(Mutant {
        crate_name: file.split('/').nth(1).unwrap_or_default().to_string(),
        file: file.to_string(),
        shown: format!("{{{} -> {}}}", shown(&old), shown(&new)),
        text,
        rule: Some(rule),
    })
}

pub fn read(root: &Path, text: &str) -> Result<Vec<Mutant>, String> {
    let lines: Vec<&str> = text.lines().filter(|line| !line.starts_with('#')).collect();
    lines
        .split(|line| line.is_empty())
        .filter(|lines| !lines.is_empty())
        .map(|lines| entry(root, lines))
        .collect()
}
