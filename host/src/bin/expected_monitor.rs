//! What the program crates/monitor must write for the lines of the files, or of standard input if none is
//! named, by the model. Lines of files are shown ahead of their answers.
use host::monitor::{answers, transcript, Session};
use std::io::{self, Read, Write};
use std::process::exit;

fn main() -> io::Result<()> {
    let mut session = Session::power_up();
    let mut out = io::stdout();
    let files: Vec<_> = std::env::args_os().skip(1).collect();
    if files.is_empty() {
        let mut text = Vec::new();
        io::stdin().read_to_end(&mut text)?;
        out.write_all(&answers(&mut session, &text))?;
    }
    for file in files {
        let text = std::fs::read(&file).unwrap_or_else(|error| {
            eprintln!("expected_monitor: expected a file of lines: {file:?}: {error}");
            exit(2)
        });
        out.write_all(&transcript(&mut session, &text))?;
    }
    Ok(())
}
