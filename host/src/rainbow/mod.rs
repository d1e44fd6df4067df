//! A library with the calls of include/rainbow.h: a shared object that is loaded, or a program that makes the calls in
//! a process of its own (host/serve.c).
mod answers;
mod loaded;
mod served;

use crate::viewers::VIEWERS;
use loaded::Loaded;
use served::Served;

/// The machine's own state. A bool of the header is a byte here, so that one which is neither 0 nor 1 can be seen.
#[repr(C)]
#[derive(Clone, Copy, Debug, Default, PartialEq, Eq)]
pub struct Machine {
    pub columns132: u8,
    pub hertz50: u8,
    pub interlace: u8,
    pub latch: u8,
    pub blink: u8,
    pub interrupt: u8,
    pub reverse: u8,
    pub watchdog: u8,
    pub count: u8,
    pub reset: u8,
    pub held: u8,
}

/// The functions of the header, without `rainbow_`. host/serve.c has the same numbers.
pub const FUNCTIONS: [&str; 31] = [
    "version",
    "power_up",
    "vertical_tick",
    "watchdog_tick",
    "columns",
    "z80_runs",
    "blanked",
    "graphics",
    "scroll_latch",
    "dots_of_line",
    "write_port",
    "read_8088",
    "store_8088",
    "read_z80",
    "store_z80",
    "read_shadow",
    "write_shadow",
    "draw",
    "store_with_picture",
    "is_marked",
    "glyph_part",
    "scan_line",
    "list_lines",
    "explain",
    "index_readers",
    "store_with_index",
    "start_viewers",
    "ask",
    "draw_for_viewers",
    "store_for_viewers",
    "store_with_index_for_viewers",
];

/// The most buffers that a function is lent.
pub const MOST_LENT: usize = 5;

/// The marks that wait for each viewer.
pub type Waiting = [u32; VIEWERS];

/// An answer. `value` is the one number that the call gives: the byte, the reads, the marks, the place, the
/// columns, the dots, the version, or 1 for true. Only a glyph part has a length, only a drawing has what it says of a
/// wild link, only what explains a cell has what it says of it, and only some calls have a machine, or viewers.
#[derive(Clone, Copy, Debug, Default, PartialEq, Eq)]
pub struct Seen {
    pub refusal: u8,
    pub value: u64,
    pub length: u64,
    pub machine: Machine,
    pub wild: Wild,
    pub explained: Explained,
    pub viewers: Waiting,
}

/// What a drawing says of the first wild link: whether there is one, a byte as a bool of the machine is, and its row.
#[derive(Clone, Copy, Debug, Default, PartialEq, Eq)]
pub struct Wild {
    pub there: u8,
    pub row: u8,
}

/// What is said of a cell. `linked` is a byte as a bool of the machine is.
#[derive(Clone, Copy, Debug, Default, PartialEq, Eq)]
pub struct Explained {
    pub answer: u8,
    pub place: u16,
    pub kind: u8,
    pub tore: u8,
    pub linked: u8,
    pub link: u16,
}

/// RAINBOW_WHY_CELL and the other answers of the header.
pub const CELL: u8 = 1;
pub const FILL: u8 = 2;
pub const PAST: u8 = 3;
pub const DARK: u8 = 4;

/// A buffer that is lent; NULL with length 0 if there is none.
pub type Lent<'a> = Option<&'a mut [u8]>;

/// A call: the function by its number, the machine, the viewers, the buffers in the header's order, and the other
/// numbers.
pub struct Request<'a> {
    pub function: usize,
    pub machine: Machine,
    pub viewers: Waiting,
    pub lent: Vec<Lent<'a>>,
    pub numbers: [u64; 2],
}

pub enum Library {
    Loaded(Box<Loaded>),
    Served(Served),
}

/// What a library's name begins with if it is a command that serves.
const COMMAND: &str = "run:";

impl Library {
    /// A shared object by its path, or a command, with its words, after `run:`.
    pub fn open(name: &str) -> Result<Self, String> {
        match name.strip_prefix(COMMAND) {
            Some(command) => Ok(Self::Served(Served::by(command))),
            None => Ok(Self::Loaded(Box::new(Loaded::open(name)?))),
        }
    }

    /// Makes a call, or says why there is no answer.
    pub fn call(&self, request: Request) -> Result<Seen, String> {
        match self {
            Self::Loaded(loaded) => Ok(loaded.call(request)),
            Self::Served(served) => served.call(request),
        }
    }
}

/// RAINBOW_VERSION of the header, which a library's version has to be.
pub fn header_version() -> u32 {
    let mut lines = include_str!("../../../include/rainbow.h").lines();
    let version = lines.find_map(|line| line.strip_prefix("#define RAINBOW_VERSION "));
    let number = version.and_then(|version| version.trim().parse().ok());
    number.expect("rainbow.h defines RAINBOW_VERSION as a number")
}

impl Wild {
    /// A row is named.
    pub fn named(row: usize) -> Self {
        Self {
            there: 1,
            row: row.try_into().expect("at most 8 bits"),
        }
    }
}

impl Seen {
    pub fn value(value: impl TryInto<u64>) -> Self {
        Self::answer(0, value)
    }

    pub fn refusal(refusal: u8) -> Self {
        Self::answer(refusal, 0u8)
    }

    pub fn answer(refusal: u8, value: impl TryInto<u64>) -> Self {
        Self {
            refusal,
            value: value.try_into().ok().expect("at most 64 bits"),
            ..Self::default()
        }
    }

    pub fn machine(refusal: u8, machine: Machine) -> Self {
        Self {
            refusal,
            machine,
            ..Self::default()
        }
    }
}
