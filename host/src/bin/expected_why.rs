//! With `screen`: the sample screen, which the program crates/why is given. With `arguments`: its arguments, one a
//! line. With no word: what it must write for them, by the model.
use std::io::Write;

/// The first letter of a cow on hold: in reverse, in a row that scrolls.
const ARGUMENTS: [&str; 2] = ["9", "18"];

fn main() -> std::io::Result<()> {
    let screen = host::sample::herd_book();
    let mut out = std::io::stdout();
    match std::env::args().nth(1).as_deref() {
        None => out.write_all(host::why::program(&ARGUMENTS, &screen).0.as_bytes()),
        Some("screen") => out.write_all(&screen),
        Some("arguments") => writeln!(out, "{}", ARGUMENTS.join("\n")),
        Some(_) => {
            eprintln!("usage: expected_why [screen | arguments]");
            std::process::exit(2);
        }
    }
}
