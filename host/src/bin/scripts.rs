//! Writes the long scripts of the monitor, which are made from seeds, into a folder.
use std::path::Path;
use std::process::exit;

fn main() -> std::io::Result<()> {
    let words: Vec<_> = std::env::args_os().skip(1).collect();
    if words.len() != 1 {
        eprintln!("scripts: expected the folder to write to");
        exit(2);
    }
    for (name, text) in host::scripts::all() {
        std::fs::write(Path::new(&words[0]).join(name), text)?;
    }
    Ok(())
}
