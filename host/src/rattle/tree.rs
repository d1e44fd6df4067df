//! The crates of crates.txt, what each is made of, and their files.
use super::kit;
use std::fs;
use std::io;
use std::path::Path;

#[derive(Clone)]
pub struct Crate {
    pub name: String,
    pub needs: Vec<String>,
    pub is_program: bool,
}

/// Some crates and all that they are made of, each after what it needs; but for those that are written by hand in Rust.
pub struct Tree {
    pub crates: Vec<Crate>,
}

impl Tree {
    /// Reads crates.txt, for some crates.
    pub fn of(root: &Path, names: &[&str]) -> io::Result<Tree> {
        let text = fs::read_to_string(root.join("crates.txt"))?;
        let lines = text.lines().filter(|line| !line.starts_with('#'));
        let listed: Vec<(&str, Vec<&str>)> = lines.filter_map(listed).collect();
        let mut crates = Vec::new();
        for name in names {
            visit(name, &listed, &mut crates);
        }
        for one in &mut crates {
            one.is_program = root
                .join(format!("crates/{}/src/main.rt", one.name))
                .exists();
        }
        Ok(Tree { crates })
    }

    pub fn libraries(&self) -> impl Iterator<Item = &Crate> {
        self.crates.iter().filter(|one| !one.is_program)
    }

    /// A crate and all that is made of it, each after what it needs.
    pub fn made_of(&self, name: &str) -> Vec<&Crate> {
        let mut made: Vec<&Crate> = Vec::new();
        for one in &self.crates {
            if one.name == name || made.iter().any(|below| one.needs.contains(&below.name)) {
                made.push(one);
            }
        }
        made
    }
}

/// The crate that a line of crates.txt lists, `NAME: NEED ..` or `NAME staticlib: NEED ..`, and what it needs.
pub fn listed(line: &str) -> Option<(&str, Vec<&str>)> {
    let (name, needs) = line.split_once(':')?;
    let name = name.split_whitespace().next()?;
    Some((name, needs.split_whitespace().collect()))
}

fn visit(name: &str, listed: &[(&str, Vec<&str>)], crates: &mut Vec<Crate>) {
    let is_there = kit::is_kit(name) || crates.iter().any(|one| one.name == name);
    let needs = match listed.iter().find(|(one, _)| *one == name) {
        Some((_, needs)) if !is_there => needs,
        _ => return,
    };
    for need in needs {
        visit(need, listed, crates);
    }
    crates.push(Crate {
        name: name.to_string(),
        needs: needs.iter().map(|need| need.to_string()).collect(),
        is_program: false,
    });
}

/// The source files of a crate, below the repository's root.
pub fn files_of(root: &Path, crate_name: &str) -> io::Result<Vec<String>> {
    let mut files = Vec::new();
    for entry in fs::read_dir(root.join("crates").join(crate_name).join("src"))? {
        let name = entry?.file_name().into_string().unwrap_or_default();
        if name.ends_with(".rt") {
            files.push(format!("crates/{crate_name}/src/{name}"));
        }
    }
    files.sort();
    Ok(files)
}
