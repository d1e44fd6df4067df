//! The Cargo package that is made from crates/: the code without what the prover alone reads (`make rust`).
pub mod c;
pub mod module;
pub mod prototypes;
pub mod same;

use crate::rattle::code;
use crate::rattle::kit::{self, is_kit};
use crate::rattle::tree::{files_of, Crate, Tree};
use std::collections::BTreeMap;
use std::fs;
use std::io;
use std::path::{Path, PathBuf};

/// The package has these crates and all that they are made of.
const CRATES: [&str; 5] = ["rainbow", "rows", "tube", "why", "monitor"];
/// Those that have no call and no constant for a user.
const INNER: [&str; 5] = ["dc011", "dc012", "diagnostic", "readers", "dots"];
/// Those with a type that keeps what its model, which the prover alone reads, is of: no code reads it.
const MODELLED: [&str; 1] = ["dots"];
/// Those that are of use to the programs alone.
const OF_PROGRAMS: [&str; 2] = ["ascii", "commands"];

/// Functions that are made a part of the loops in other crates that call them. The kit's compiler does so by itself;
/// rustc, whose tests of indexes make them larger, has to be told.
const IN_LOOPS: [(&str, &[&str]); 1] = [("records", &["draw_row", "draw_cells"])];

/// The file by which slices are taken as arrays also where Rust has not that of itself, and what a module that does it is
/// told.
const ARRAYS_FILE: &str = "src/arrays.rs";
const USES_ARRAYS: &str = "#[allow(unused_imports)]\nuse crate::arrays::Arrays as _;";

/// The crate with the names of C, and the file that C calls.
const C_NAMES: &str = "rainbow";
const C_FILE: &str = "src/c.rs";
/// A C file that compiles if the header says the same.
const PROTOTYPES: &str = "prototypes.c";

/// A file of the package, below its folder.
struct Made {
    /// The file of Rattle that it is made from, below the repository's root; the other files are written by hand.
    source: Option<String>,
    /// The module that the crate becomes, of a library.
    own: Option<String>,
    text: String,
}

type Files = BTreeMap<PathBuf, Made>;

/// A line that names other modules.
fn use_line(from: &str, mut names: Vec<&str>) -> Option<String> {
    names.sort_unstable();
    match names.as_slice() {
        [] => None,
        [one] => Some(format!("use {from}::{one};")),
        _ => Some(format!("use {from}::{{{}}};", names.join(", "))),
    }
}

/// Where a file of a crate goes. A crate of one file is a file.
fn place(one: &Crate, file: &str, alone: bool) -> PathBuf {
    let stem = Path::new(file).file_stem().unwrap_or_default();
    let stem = stem.to_string_lossy();
    PathBuf::from(match (one.is_program, stem.as_ref()) {
        (true, stem) => format!("src/bin/{}/{stem}.rs", one.name),
        (false, "lib") if alone => format!("src/{}.rs", one.name),
        (false, "lib") => format!("src/{}/mod.rs", one.name),
        (false, stem) => format!("src/{}/{stem}.rs", one.name),
    })
}

/// What a file of a library is told: the modules that it names, and how it takes slices as arrays.
fn library_uses(one: &Crate, text: &str) -> Vec<String> {
    let names = module::named(text, &one.needs);
    let mut lines: Vec<String> = use_line("crate", names).into_iter().collect();
    if kit::takes_arrays(&code::words(text)) {
        lines.push(USES_ARRAYS.to_string());
    }
    lines
}

/// What a file of a program is told: the library, and what stands for the kit's, which its first file declares.
fn program_uses(one: &Crate, text: &str, is_main: bool) -> Vec<String> {
    let names = module::named(text, &one.needs);
    let (kit, library): (Vec<&str>, Vec<&str>) = names.into_iter().partition(|name| is_kit(name));
    let mut lines = Vec::new();
    if is_main {
        lines.push("#![forbid(unsafe_code)]".to_string());
        let mut parts: Vec<&String> = one.needs.iter().filter(|need| is_kit(need)).collect();
        parts.sort_unstable();
        for part in parts {
            lines.push("#[allow(dead_code)]".to_string());
            lines.push(format!("#[path = \"../../kit/{part}.rs\"]\nmod {part};"));
        }
    }
    if !is_main {
        lines.extend(use_line("crate", kit));
    }
    lines.extend(use_line("crate::console", module::of_console(text)));
    lines.extend(use_line("rainbow", library));
    lines
}

/// The functions of a crate that become parts of loops.
fn in_loops(name: &str) -> &'static [&'static str] {
    let named = IN_LOOPS.iter().find(|(one, _)| *one == name);
    named.map_or(&[], |(_, functions)| functions)
}

/// The files made from a crate.
fn of_crate(root: &Path, one: &Crate) -> io::Result<Files> {
    let sources = files_of(root, &one.name)?;
    let mut files = Files::new();
    for source in &sources {
        let text = fs::read_to_string(root.join(source))?;
        let uses = if one.is_program {
            program_uses(one, &text, source.ends_with("/main.rt"))
        } else {
            library_uses(one, &text)
        };
        let own = (!one.is_program).then(|| one.name.clone());
        let mut made = module::module(&text, own.as_deref(), &uses, in_loops(&one.name));
        if made.contains(kit::MAIN) {
            made = made.replacen(kit::MAIN, kit::RENAMED, 1) + kit::CALLER;
        }
        let made = Made {
            source: Some(source.clone()),
            own,
            text: made,
        };
        files.insert(place(one, source, sources.len() == 1), made);
    }
    Ok(files)
}

fn by_hand(text: String) -> Made {
    Made {
        source: None,
        own: None,
        text,
    }
}

/// The modules of the library, as lines of its first file.
fn modules(tree: &Tree) -> String {
    let mut names: Vec<&str> = tree.libraries().map(|one| one.name.as_str()).collect();
    names.retain(|name| *name != C_NAMES);
    names.sort_unstable();
    let mut lines = format!(
        "mod arrays;\n#[cfg(rainbow_c)]\n#[allow(unsafe_code)]\nmod c;\n#[cfg(rainbow_c)]\nmod {C_NAMES};\n\n"
    );
    for name in names {
        let how = match name {
            _ if INNER.contains(&name) => "",
            _ if OF_PROGRAMS.contains(&name) => "#[doc(hidden)]\npub ",
            _ => "pub ",
        };
        if MODELLED.contains(&name) {
            lines += "#[allow(dead_code)]\n";
        }
        lines += &format!("{how}mod {name};\n");
    }
    lines
}

fn wrong(why: impl Into<String>) -> io::Error {
    io::Error::new(io::ErrorKind::InvalidData, why.into())
}

fn header(root: &Path) -> io::Result<String> {
    fs::read_to_string(root.join("include/rainbow.h"))
}

/// RAINBOW_VERSION of the header.
fn version(root: &Path) -> io::Result<String> {
    let header = header(root)?;
    let mut lines = header.lines();
    let version = lines.find_map(|line| line.strip_prefix("#define RAINBOW_VERSION "));
    let version = version.ok_or_else(|| wrong("rainbow.h has no version"))?;
    Ok(version.to_string())
}

/// The files of some crates, each with its text.
fn texts(root: &Path, names: &[&str]) -> io::Result<Vec<(String, String)>> {
    let mut texts = Vec::new();
    for name in names {
        for source in files_of(root, name)? {
            let stem = Path::new(&source).file_stem().unwrap_or_default();
            let stem = stem.to_string_lossy().into_owned();
            texts.push((stem, fs::read_to_string(root.join(&source))?));
        }
    }
    Ok(texts)
}

/// The struct that a text declares at its beginning, after a derive.
fn declared(text: &str) -> Option<&str> {
    let text = match text.strip_prefix("#[derive(") {
        Some(rest) => rest.split_once(")]\n")?.1,
        None => text,
    };
    Some(text.strip_prefix("pub struct ")?.split_once(' ')?.0)
}

/// A function that the header has and the crate has not, or the other way round.
fn not_in_both<'a>(header: &'a str, functions: &[c::Function<'a>]) -> Option<&'a str> {
    let there = prototypes::declared(header);
    let here: Vec<&str> = functions.iter().map(|one| one.name).collect();
    let mut all = there.iter().chain(&here).copied();
    all.find(|name| !there.contains(name) || !here.contains(name))
}

/// What a C compiler links, and what it compares the header with.
fn for_c(root: &Path, tree: &Tree) -> io::Result<(String, String)> {
    let exported = texts(root, &[C_NAMES])?;
    let functions = exported
        .iter()
        .flat_map(|(module, text)| c::functions(module, text));
    let functions: Vec<c::Function> = functions.collect();
    let header = header(root)?;
    if let Some(name) = not_in_both(&header, &functions) {
        let why = format!("rainbow.h and crate {C_NAMES} do not both have {name}");
        return Err(wrong(why));
    }
    let libraries: Vec<&str> = tree.libraries().map(|one| one.name.as_str()).collect();
    let texts = texts(root, &libraries)?;
    let mut structs: Vec<(&str, &str)> = Vec::new();
    for (_, text) in &texts {
        let after = text.split("#[repr(C)]\n").skip(1);
        structs.extend(after.filter_map(|rest| Some((declared(rest)?, text.as_str()))));
    }
    let machine = structs.iter().find(|(name, _)| *name == "Machine");
    let (_, machine) = machine.ok_or_else(|| wrong("no crate declares the machine"))?;
    let c_file = c::file(&functions, &exported, machine);
    Ok((c_file, prototypes::file(&functions, &structs)))
}

/// Every file of the package.
fn files(root: &Path) -> io::Result<Files> {
    let tree = Tree::of(root, &CRATES)?;
    let mut files = Files::new();
    for one in &tree.crates {
        files.extend(of_crate(root, one)?);
    }
    for (name, text) in kit::LIBRARIES {
        files.insert(
            format!("src/kit/{name}.rs").into(),
            by_hand(text.to_string()),
        );
    }
    files.insert(ARRAYS_FILE.into(), by_hand(kit::ARRAYS.to_string()));
    let (c_file, prototypes) = for_c(root, &tree)?;
    files.insert(C_FILE.into(), by_hand(c_file));
    files.insert(PROTOTYPES.into(), by_hand(prototypes));
    let lib = include_str!("../../package/lib.rs").replace("// MODULES\n", &modules(&tree));
    files.insert("src/lib.rs".into(), by_hand(lib));
    let cargo = include_str!("../../package/Cargo.toml").replace("VERSION", &version(root)?);
    files.insert("Cargo.toml".into(), by_hand(cargo));
    Ok(files)
}

/// The files in a folder and below it.
fn below(folder: &Path, found: &mut Vec<PathBuf>) -> io::Result<()> {
    for entry in fs::read_dir(folder)? {
        let path = entry?.path();
        if path.is_dir() {
            below(&path, found)?;
        } else {
            found.push(path);
        }
    }
    Ok(())
}

/// The files below src/ in a folder that are no files of the package.
fn others(files: &Files, into: &Path) -> io::Result<Vec<PathBuf>> {
    let mut found = Vec::new();
    below(&into.join("src"), &mut found)?;
    found.retain(|path| !files.contains_key(path.strip_prefix(into).unwrap_or(path)));
    Ok(found)
}

/// Writes the files that are not there yet as they should be, and takes away all others below src/.
fn put(files: &Files, into: &Path) -> io::Result<()> {
    for (name, made) in files {
        let path = into.join(name);
        if fs::read_to_string(&path).ok().as_ref() != Some(&made.text) {
            fs::create_dir_all(path.parent().unwrap_or(into))?;
            fs::write(path, &made.text)?;
        }
    }
    for path in others(files, into)? {
        fs::remove_file(path)?;
    }
    Ok(())
}

/// Compares the written files with their sources.
fn check(root: &Path, files: &Files, into: &Path) -> Result<same::Compared, String> {
    let read = |path: PathBuf| {
        fs::read_to_string(&path).map_err(|error| format!("{}: {error}", path.display()))
    };
    let mut all = same::Compared::default();
    for (name, made) in files {
        let text = read(into.join(name))?;
        let differs = |why| format!("{}: {why}", name.display());
        if let Some(source) = &made.source {
            let source = read(root.join(source))?;
            let compared = same::compare(&source, &text, made.own.as_deref()).map_err(differs)?;
            all.functions += compared.functions;
            all.tokens += compared.tokens;
        }
        if name != Path::new(C_FILE) && same::has_unsafe(&text) {
            return Err(differs("it has unsafe code".to_string()));
        }
    }
    Ok(all)
}

fn told(error: io::Error) -> String {
    error.to_string()
}

/// Writes the package to a folder, and compares what is there then with crates/.
pub fn write(root: &Path, into: &Path) -> Result<same::Compared, String> {
    let files = files(root).map_err(told)?;
    put(&files, into).map_err(told)?;
    check(root, &files, into)
}

/// Compares a package that is there with crates/, and with what would be written now.
pub fn compare(root: &Path, into: &Path) -> Result<same::Compared, String> {
    let files = files(root).map_err(told)?;
    if let Some(other) = others(&files, into).map_err(told)?.first() {
        return Err(format!("{} is no file of the package", other.display()));
    }
    let compared = check(root, &files, into)?;
    for (name, made) in &files {
        if fs::read_to_string(into.join(name)).map_err(told)? != made.text {
            return Err(format!("{} is not as it was written", name.display()));
        }
    }
    Ok(compared)
}
