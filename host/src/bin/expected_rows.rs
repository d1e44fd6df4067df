//! With `screen`: the sample screen, which the program crates/rows is given. With no word: what it must
//! write for it, by the model.
use std::io::Write;

fn main() -> std::io::Result<()> {
    let screen = host::sample::herd_book();
    let mut out = std::io::stdout();
    match std::env::args().nth(1).as_deref() {
        None => out.write_all(host::chain::listing(&screen).as_bytes()),
        Some("screen") => out.write_all(&screen),
        Some(_) => {
            eprintln!("usage: expected_rows [screen]");
            std::process::exit(2);
        }
    }
}
