//! The mutants that do the same as the right code, each with the reason: host/mutants/equivalent.txt. An entry is
//! the file, the mutants as they are listed, one a line, and the reason, its lines set in. A blank line ends it.
use super::Mutant;
use std::collections::BTreeMap;

/// The reason for each mutant, by its file and how it is listed.
pub struct Reasons(BTreeMap<(String, String), String>);

impl Reasons {
    pub fn read(text: &str) -> Result<Reasons, String> {
        let mut reasons = BTreeMap::new();
        let lines: Vec<&str> = text.lines().filter(|line| !line.starts_with('#')).collect();
        for entry in lines
            .split(|line| line.is_empty())
            .filter(|lines| !lines.is_empty())
        {
            let reason = entry.iter().filter(|line| line.starts_with(' '));
            let reason = reason.map(|line| line.trim()).collect::<Vec<_>>().join(" ");
            let listed: Vec<&&str> = entry
                .iter()
                .skip(1)
                .filter(|line| !line.starts_with(' '))
                .collect();
            if reason.is_empty() || listed.is_empty() || !entry[0].starts_with("crates/") {
                return Err(format!("expected a file, mutants and a reason: {entry:?}"));
            }
            for shown in listed {
                reasons.insert((entry[0].to_string(), shown.to_string()), reason.clone());
            }
        }
        Ok(Reasons(reasons))
    }

    fn key(mutant: &Mutant) -> (String, String) {
        (mutant.file.clone(), mutant.shown.clone())
    }

    pub fn of(&self, mutant: &Mutant) -> Option<&String> {
        self.0.get(&Reasons::key(mutant))
    }

    /// The entries for mutants of some crates that are none of these.
    pub fn of_none(&self, crates: &[String], unnoticed: &[Mutant]) -> Vec<String> {
        let unnoticed: Vec<_> = unnoticed.iter().map(Reasons::key).collect();
        let of_crates = |file: &str| {
            crates
                .iter()
                .any(|name| file.split('/').nth(1) == Some(name))
        };
        let none = self
            .0
            .keys()
            .filter(|key| of_crates(&key.0) && !unnoticed.contains(key));
        none.map(|(file, shown)| format!("{file}\n  {shown}"))
            .collect()
    }
}
