//! Checks the documents against the tree: every definition and every must-fail edit is named, every file, link and
//! theorem that is named is there, the functions are counted right, what docs/READING.md quotes is quoted right, and so
//! are files that a document quotes whole, and no line is too long. And the exports of crate rainbow_c are what crate
//! rainbow has.
//! usage: check_docs [--write] ROOT
//! --write: writes the right counts into docs/PROMISES.md, and checks nothing else.
use host::docs::{counts, exports, lines};
use host::rattle::tree::{files_of, listed};
use std::collections::BTreeSet;
use std::fs;
use std::path::{Path, PathBuf};
use std::process::exit;

const MANUALS: &str = "docs/MANUALS.md";
const PROMISES: &str = "docs/PROMISES.md";
const READING: &str = "docs/READING.md";

fn give_up(why: impl std::fmt::Display) -> ! {
    eprintln!("check_docs: {why}");
    exit(2)
}

fn read(path: &Path) -> String {
    fs::read_to_string(path).unwrap_or_else(|error| give_up(format!("{}: {error}", path.display())))
}

/// The files of a kind in a folder of every crate.
fn files(root: &Path, folder: &str, ending: &str) -> Vec<PathBuf> {
    let inside = |path: PathBuf| fs::read_dir(path).into_iter().flatten().flatten();
    let crates = inside(root.join("crates"));
    let files = crates.flat_map(|one| inside(one.path().join(folder)));
    let mut files: Vec<PathBuf> = files.map(|file| file.path()).collect();
    files.retain(|file| file.to_string_lossy().ends_with(ending));
    files.sort();
    files
}

/// README.md and every document, those of the tickets too, with its text.
fn documents(root: &Path) -> Vec<(String, String)> {
    let of_folder = |folder: &'static str| {
        let files = fs::read_dir(root.join(folder)).into_iter().flatten();
        let names = files.flatten().map(|file| file.file_name());
        names.map(move |name| format!("{folder}/{}", name.to_string_lossy()))
    };
    let names = ["docs", "docs/tickets"].into_iter().flat_map(of_folder);
    let mut names: Vec<String> = names.filter(|name| name.ends_with(".md")).collect();
    names.push("README.md".to_string());
    names.sort();
    let with_text = |name: String| (name.clone(), read(&root.join(name)));
    names.into_iter().map(with_text).collect()
}

/// The crates of crates.txt, each with the functions of its code.
fn crates(root: &Path) -> Vec<(String, usize)> {
    let list = read(&root.join("crates.txt"));
    let lines = list.lines().filter(|line| !line.starts_with('#'));
    let names = lines.filter_map(listed);
    names
        .map(|(name, _)| {
            let files = files_of(root, name).unwrap_or_else(|error| give_up(error));
            let of_file = |file: String| counts::functions(&read(&root.join(file)));
            (name.to_string(), files.into_iter().map(of_file).sum())
        })
        .collect()
}

/// The name that a line defines, if it does.
fn defined(line: &str) -> Option<&str> {
    let starts = ["unfoldable pub ", "abbrev pub ", "pub record ", "pub data "];
    let rest = starts.iter().find_map(|start| line.strip_prefix(start))?;
    rest.split_whitespace().next()
}

/// Words that could be paths below crates/.
fn paths(text: &str) -> impl Iterator<Item = &str> {
    let parts = text.split(|c: char| c.is_whitespace() || "`,;:()|\"".contains(c));
    parts.map(|part| part.trim_end_matches('.').trim_start_matches("crates/"))
}

/// Definitions that no row of the document names beside their file.
fn unnamed(root: &Path, manuals: &str) -> Vec<String> {
    let mut unnamed = Vec::new();
    for file in files(root, "specs", ".antt") {
        let shown = file.strip_prefix(root.join("crates")).unwrap_or(&file);
        let shown = shown.to_string_lossy().into_owned();
        for name in read(&file).lines().filter_map(defined) {
            let quoted = format!("`{name}`");
            let named = |line: &str| line.contains(&quoted) && line.contains(&shown);
            if !manuals.lines().any(named) {
                unnamed.push(format!("{MANUALS} does not name {name} of {shown}"));
            }
        }
    }
    unnamed
}

/// Files that a document names or links and that are not there.
fn missing(root: &Path, name: &str, text: &str) -> Vec<String> {
    let looks = |path: &&str| {
        let kinds = ["/specs/", "/src/", "/proofs/", "/must-fail/", "/data/"];
        kinds.iter().any(|kind| path.contains(kind)) && !path.ends_with('/') && !path.contains('*')
    };
    let there = |path: &str| {
        let below = root.join("crates").join(path);
        below.exists() || below.with_extension("edit").exists() || root.join(path).exists()
    };
    let named = paths(text).filter(looks).filter(|path| !there(path));
    let document = root.join(name);
    let folder = document.parent().unwrap_or(root);
    let linked = lines::links(text).into_iter();
    let linked = linked.filter(|link| !folder.join(link).exists());
    let paths: BTreeSet<&str> = named.chain(linked).collect();
    paths
        .into_iter()
        .map(|path| format!("{name} names {path}, which is not there"))
        .collect()
}

/// Must-fail edits that the promises do not name.
fn unlisted(root: &Path, promises: &str) -> Vec<String> {
    let edits = files(root, "must-fail", ".edit")
        .into_iter()
        .filter_map(|edit| {
            let shown = edit.strip_prefix(root).ok()?.to_string_lossy().into_owned();
            (!promises.contains(&shown)).then(|| format!("{PROMISES} does not name {shown}"))
        });
    edits.collect()
}

/// Theorems of no second outcome that the promises do not name, or name and that are not there.
fn theorems(root: &Path, promises: &str) -> Vec<String> {
    let proofs = read(&root.join("crates/runs/proofs/NoSecond.antt"));
    let proved: BTreeSet<&str> = proofs
        .lines()
        .filter_map(|line| line.strip_prefix("pub ")?.split_whitespace().next())
        .filter(|name| name.ends_with("_once"))
        .collect();
    let named: BTreeSet<&str> = promises
        .split('`')
        .filter(|name| name.ends_with("_once"))
        .collect();
    let not_named = proved.difference(&named);
    let not_named = not_named.map(|name| format!("{PROMISES} does not name the theorem {name}"));
    let not_there = named.difference(&proved);
    let not_there = not_there
        .map(|name| format!("{PROMISES} names the theorem {name}, which is not in NoSecond.antt"));
    not_named.chain(not_there).collect()
}

/// The lines of the definitions and of the code, without the blanks around them.
fn tree_lines(root: &Path) -> BTreeSet<String> {
    let files = [files(root, "specs", ".antt"), files(root, "src", ".rt")].concat();
    let lines_of = |file: &PathBuf| -> Vec<String> {
        let text = read(file);
        text.lines().map(|line| line.trim().to_string()).collect()
    };
    files.iter().flat_map(lines_of).collect()
}

/// Lines of code in docs/READING.md that no definition has.
fn misquoted(text: &str, tree: &BTreeSet<String>) -> Vec<String> {
    let mut quoted = lines::lines(text);
    quoted.retain(|line| line.is_code && !tree.contains(line.text.trim()));
    let told = quoted.iter();
    told.map(|line| {
        format!(
            "{READING} line {}: no definition has this line",
            line.number
        )
    })
    .collect()
}

/// Quotes of whole files that are not what the file has.
fn not_the_file(root: &Path, name: &str, text: &str) -> Vec<String> {
    let document = root.join(name);
    let folder = document.parent().unwrap_or(root);
    let mut quotes = lines::quotes(text);
    quotes.retain(|quote| {
        fs::read_to_string(folder.join(quote.file)).ok().as_ref() != Some(&quote.text)
    });
    let told = quotes.iter();
    told.map(|quote| {
        let (line, file) = (quote.number, quote.file);
        format!("{name} line {line}: what follows is not the text of {file}")
    })
    .collect()
}

/// Lines of a document that are too long.
fn long(name: &str, text: &str, tree: &BTreeSet<String>) -> Vec<String> {
    let quotes = |line: &str| tree.contains(line);
    let told = lines::long(text, quotes).into_iter();
    told.map(|line| {
        let characters = line.text.chars().count();
        let most = lines::LONGEST;
        format!(
            "{name} line {}: {characters} characters, over {most}",
            line.number
        )
    })
    .collect()
}

/// What the archive for C exports otherwise than the library has it.
fn exported(root: &Path) -> Vec<String> {
    let of_module = |library: PathBuf| -> Vec<String> {
        let module = library.file_stem().unwrap_or_default().to_string_lossy();
        let archive = root.join(format!("crates/rainbow_c/src/{module}.rt"));
        exports::problems(&module, &read(&library), &read(&archive))
    };
    let mut modules = files(root, "src", ".rt");
    modules.retain(|file| file.starts_with(root.join("crates/rainbow/src")));
    modules.into_iter().flat_map(of_module).collect()
}

fn check(root: &Path) -> Vec<String> {
    let (manuals, promises) = (read(&root.join(MANUALS)), read(&root.join(PROMISES)));
    let tree = tree_lines(root);
    let mut problems = unnamed(root, &manuals);
    problems.extend(unlisted(root, &promises));
    problems.extend(theorems(root, &promises));
    problems.extend(counts::problems(&promises, &crates(root)));
    problems.extend(misquoted(&read(&root.join(READING)), &tree));
    problems.extend(exported(root));
    for (name, text) in documents(root) {
        problems.extend(missing(root, &name, &text));
        problems.extend(not_the_file(root, &name, &text));
        problems.extend(long(&name, &text, &tree));
    }
    problems
}

/// Writes the right counts; what could not be written is left as a problem.
fn write_counts(root: &Path) -> Vec<String> {
    let (promises, crates) = (read(&root.join(PROMISES)), crates(root));
    let corrected = counts::corrected(&promises, &crates);
    if corrected != promises {
        let written = fs::write(root.join(PROMISES), &corrected);
        written.unwrap_or_else(|error| give_up(format!("{PROMISES}: {error}")));
        println!("{PROMISES}: the counts are written");
    }
    counts::problems(&corrected, &crates)
}

fn main() {
    let words: Vec<String> = std::env::args().skip(1).collect();
    let words: Vec<&str> = words.iter().map(String::as_str).collect();
    let (root, write) = match words[..] {
        ["--write", root] => (root, true),
        [root] => (root, false),
        _ => give_up("usage: check_docs [--write] ROOT"),
    };
    let root = Path::new(root);
    if !root.join("crates.txt").exists() {
        give_up(format!("{} has no crates.txt", root.display()));
    }
    let problems = if write {
        write_counts(root)
    } else {
        check(root)
    };
    for problem in &problems {
        println!("{problem}");
    }
    let word = if problems.len() == 1 {
        "problem"
    } else {
        "problems"
    };
    println!("docs: {} {word}", problems.len());
    exit(i32::from(!problems.is_empty()));
}
