//! What the functions of include/rainbow.h answer, as C lays it out. A bool is a byte, as in the machine.
use super::{Machine, Waiting};

#[repr(C)]
pub struct ByteRead {
    pub refusal: u8,
    pub byte: u8,
}

#[repr(C)]
pub struct Written {
    pub refusal: u8,
    pub machine: Machine,
}

#[repr(C)]
pub struct Drawn {
    pub refusal: u8,
    pub reads: u16,
    pub wild: u8,
    pub wild_row: u8,
}

#[repr(C)]
pub struct Stored {
    pub refusal: u8,
    pub marks: u32,
}

#[repr(C)]
pub struct Viewers {
    pub waiting: Waiting,
}

#[repr(C)]
pub struct Asked {
    pub refusal: u8,
    pub marks: u32,
    pub viewers: Viewers,
}

#[repr(C)]
pub struct DrawnForViewers {
    pub drawn: Drawn,
    pub viewers: Viewers,
}

#[repr(C)]
pub struct StoredForViewers {
    pub stored: Stored,
    pub viewers: Viewers,
}

#[repr(C)]
pub struct Why {
    pub refusal: u8,
    pub answer: u8,
    pub place: u16,
    pub kind: u8,
    pub tore: u8,
    pub linked: u8,
    pub link: u16,
}

#[repr(C)]
pub struct PartPlace {
    pub refusal: u8,
    pub at: usize,
    pub length: usize,
}
