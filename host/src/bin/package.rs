//! Makes the Cargo package of the library and the programs, and checks that it has the text of crates/.
//! usage: package [--check] ROOT FOLDER
//! --check: checks a package that is there, and writes nothing.
use host::package;
use std::path::Path;
use std::process::exit;

fn main() {
    let words: Vec<String> = std::env::args().skip(1).collect();
    let words: Vec<&str> = words.iter().map(String::as_str).collect();
    let (root, into, written) = match words[..] {
        ["--check", root, into] => (root, into, true),
        [root, into] if Path::new(root).join("crates.txt").exists() => (root, into, false),
        _ => {
            eprintln!(
                "usage: package [--check] ROOT FOLDER, where ROOT is the folder of crates.txt"
            );
            exit(2);
        }
    };
    let (root, folder) = (Path::new(root), Path::new(into));
    let compared = if written {
        package::compare(root, folder)
    } else {
        package::write(root, folder)
    };
    match compared {
        Ok(same) => println!(
            "{into}: {} functions, each with the body that it has in crates/, {} tokens",
            same.functions, same.tokens
        ),
        Err(why) => {
            eprintln!("package: {why}");
            exit(1);
        }
    }
}
