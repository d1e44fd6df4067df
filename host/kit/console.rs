//! Crate console, whose calls are the last four here, and of the kit's std what Rust's has in another form: the handle
//! that stands for the system, and the macros that take it. Nothing that is written waits in a buffer.
#![allow(unused_imports)]
use std::fmt::Display;
use std::fs::File;
use std::io::{self, Read, Stdin, Write};
use std::os::unix::ffi::OsStrExt;

/// What stands for the system.
pub struct HostRuntime;

/// Writes at once, so that what cannot be written is told.
fn put(mut out: impl Write, bytes: &[u8]) -> io::Result<()> {
    out.write_all(bytes)?;
    out.flush()
}

impl HostRuntime {
    pub fn stdin(&self) -> Stdin {
        io::stdin()
    }

    pub fn write_all(&self, bytes: &[u8]) -> io::Result<()> {
        put(io::stdout().lock(), bytes)
    }

    pub fn print(&self, what: impl Display) -> io::Result<()> {
        self.write_all(what.to_string().as_bytes())
    }

    pub fn println(&self, what: impl Display) -> io::Result<()> {
        self.write_all(format!("{what}\n").as_bytes())
    }

    pub fn eprint(&self, what: impl Display) -> io::Result<()> {
        put(io::stderr().lock(), what.to_string().as_bytes())
    }

    pub fn eprintln(&self, what: impl Display) -> io::Result<()> {
        put(io::stderr().lock(), format!("{what}\n").as_bytes())
    }
}

// The macros have names of their own here and are handed on under those that Rust's have.
#[macro_export]
macro_rules! print_by {
    ($rt:expr; $($what:tt)+) => {
        $rt.print(format_args!($($what)+))
    };
}

#[macro_export]
macro_rules! println_by {
    ($rt:expr $(;)?) => {
        $rt.println("")
    };
    ($rt:expr; $($what:tt)+) => {
        $rt.println(format_args!($($what)+))
    };
}

#[macro_export]
macro_rules! eprint_by {
    ($rt:expr; $($what:tt)+) => {
        $rt.eprint(format_args!($($what)+))
    };
}

#[macro_export]
macro_rules! eprintln_by {
    ($rt:expr $(;)?) => {
        $rt.eprintln("")
    };
    ($rt:expr; $($what:tt)+) => {
        $rt.eprintln(format_args!($($what)+))
    };
}

pub use {eprint_by as eprint, eprintln_by as eprintln, print_by as print, println_by as println};

pub fn read_full<R: Read>(from: &mut R, to: &mut [u8]) -> usize {
    let mut at = 0;
    while at < to.len() {
        match from.read(&mut to[at..]) {
            Ok(bytes) if bytes > 0 => at += bytes,
            _ => break,
        }
    }
    at
}

pub fn has_argument(_: &HostRuntime, i: usize) -> bool {
    std::env::args_os().count() > i
}

pub fn argument(_: &HostRuntime, i: usize, word: &mut [u8]) -> usize {
    let given = std::env::args_os().nth(i).unwrap_or_default();
    let bytes = given.as_bytes().len().min(word.len());
    word[..bytes].copy_from_slice(&given.as_bytes()[..bytes]);
    if bytes < given.as_bytes().len() {
        return 0;
    }
    bytes
}

pub fn open(_: &HostRuntime, path: &str) -> io::Result<File> {
    File::open(path)
}
