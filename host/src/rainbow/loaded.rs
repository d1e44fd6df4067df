//! A shared object: its functions by their names of C, and a call of each. Rust's own rules keep what the header asks
//! of its caller: a slice is one buffer with its length, and one that may change overlaps no other.
use super::answers::{
    Asked, ByteRead, Drawn, DrawnForViewers, PartPlace, Stored, StoredForViewers, Viewers, Why,
    Written,
};
use super::{Explained, Lent, Machine, Request, Seen, Wild, FUNCTIONS, MOST_LENT};
use std::ffi::{c_void, CStr, CString};
use std::os::raw::{c_char, c_int};
use std::ptr::null_mut;

extern "C" {
    fn dlopen(name: *const c_char, how: c_int) -> *mut c_void;
    fn dlsym(library: *mut c_void, name: *const c_char) -> *mut c_void;
    fn dlerror() -> *const c_char;
}

/// Every name is looked up at once, and seen by no other library.
const NOW: c_int = 2;

/// The shared object, with the address of each function.
pub struct Loaded {
    functions: [usize; FUNCTIONS.len()],
}

fn text(words: &str) -> Result<CString, String> {
    CString::new(words).map_err(|error| error.to_string())
}

/// A function as what it is.
macro_rules! of {
    ($address:expr, ($($kind:ty),*) -> $answer:ty) => {
        std::mem::transmute::<usize, unsafe extern "C" fn($($kind),*) -> $answer>($address)
    };
}

type In = *const u8;
type Out = *mut u8;

/// The buffers that are lent, and after them NULL.
type Buffers = [(Out, usize); MOST_LENT];

/// Where a buffer is and how long it is.
fn raw(lent: &mut Lent) -> (Out, usize) {
    let bytes = lent.as_deref_mut();
    bytes.map_or((null_mut(), 0), |bytes| (bytes.as_mut_ptr(), bytes.len()))
}

impl Loaded {
    pub fn open(path: &str) -> Result<Self, String> {
        // A name without a slash would be looked for in the system's folders.
        let full = std::fs::canonicalize(path).map_err(|error| format!("{path}: {error}"))?;
        let name = text(&full.to_string_lossy())?;
        let library = unsafe { dlopen(name.as_ptr(), NOW) };
        if library.is_null() {
            let why = unsafe { CStr::from_ptr(dlerror()) };
            return Err(why.to_string_lossy().into_owned());
        }
        let mut functions = [0; FUNCTIONS.len()];
        for (address, function) in functions.iter_mut().zip(FUNCTIONS) {
            let name = text(&format!("rainbow_{function}"))?;
            *address = unsafe { dlsym(library, name.as_ptr()) } as usize;
            if *address == 0 {
                return Err(format!("{path} has no function rainbow_{function}"));
            }
        }
        Ok(Self { functions })
    }

    pub fn call(&self, request: Request) -> Seen {
        let Request {
            function,
            machine,
            viewers: waiting,
            mut lent,
            numbers: [m, n],
        } = request;
        let viewers = Viewers { waiting };
        let at = self.functions[function];
        let name = FUNCTIONS[function];
        let mut buffers = [(null_mut(), 0); MOST_LENT];
        for (place, one) in buffers.iter_mut().zip(&mut lent) {
            *place = raw(one);
        }
        unsafe {
            match name {
                "version" => Seen::value(of!(at, () -> u32)()),
                "power_up" => Seen::machine(0, of!(at, () -> Machine)()),
                "vertical_tick" | "watchdog_tick" => {
                    Seen::machine(0, of!(at, (Machine) -> Machine)(machine))
                }
                "columns" | "dots_of_line" => Seen::value(of!(at, (Machine) -> usize)(machine)),
                "z80_runs" | "blanked" | "graphics" | "scroll_latch" => {
                    Seen::value(of!(at, (Machine) -> u8)(machine))
                }
                "is_marked" => Seen::value(of!(at, (u32, usize) -> u8)(m as u32, n as usize)),
                "start_viewers" => Seen {
                    viewers: of!(at, () -> Viewers)().waiting,
                    ..Seen::default()
                },
                "ask" => {
                    let asked = of!(at, (Viewers, usize) -> Asked)(viewers, m as usize);
                    Seen {
                        viewers: asked.viewers.waiting,
                        ..Seen::answer(asked.refusal, asked.marks)
                    }
                }
                "draw_for_viewers" | "store_for_viewers" | "store_with_index_for_viewers" => {
                    serving(name, at, machine, viewers, buffers, m, n)
                }
                _ => lending(name, at, machine, buffers, m, n),
            }
        }
    }
}

/// A call of a function that serves viewers.
unsafe fn serving(
    name: &str,
    at: usize,
    machine: Machine,
    viewers: Viewers,
    lent: Buffers,
    m: u64,
    n: u64,
) -> Seen {
    let [(a, a_len), (b, b_len), (c, c_len), (d, d_len), (e, e_len)] = lent;
    if name == "draw_for_viewers" {
        let call = of!(at, (Machine, Viewers, In, usize, In, usize, Out, usize) -> DrawnForViewers);
        let served = call(machine, viewers, a, a_len, b, b_len, c, c_len);
        return Seen {
            viewers: served.viewers.waiting,
            ..drawn(served.drawn)
        };
    }
    let (address, byte) = (m as u32, n as u8);
    let served = if name == "store_with_index_for_viewers" {
        let call = of!(
            at,
            (Machine, Viewers, Out, usize, Out, usize, Out, usize, Out, usize, Out, usize, u32, u8) -> StoredForViewers
        );
        call(
            machine, viewers, a, a_len, b, b_len, c, c_len, d, d_len, e, e_len, address, byte,
        )
    } else {
        let call = of!(
            at,
            (Machine, Viewers, Out, usize, Out, usize, Out, usize, Out, usize, u32, u8) -> StoredForViewers
        );
        call(
            machine, viewers, a, a_len, b, b_len, c, c_len, d, d_len, address, byte,
        )
    };
    Seen {
        viewers: served.viewers.waiting,
        ..Seen::answer(served.stored.refusal, served.stored.marks)
    }
}

/// A call of another function that is lent buffers.
unsafe fn lending(name: &str, at: usize, machine: Machine, lent: Buffers, m: u64, n: u64) -> Seen {
    let [(a, a_len), (b, b_len), (c, c_len), (d, d_len), (e, e_len)] = lent;
    match name {
        "write_port" => {
            let call = of!(at, (Machine, Out, usize, Out, usize, u16, u8) -> Written);
            let written = call(machine, a, a_len, b, b_len, m as u16, n as u8);
            Seen::machine(written.refusal, written.machine)
        }
        "read_8088" => {
            let call = of!(at, (Machine, In, usize, In, usize, In, usize, u32) -> ByteRead);
            read(call(machine, a, a_len, b, b_len, c, c_len, m as u32))
        }
        "store_8088" => {
            let call = of!(at, (Machine, Out, usize, Out, usize, Out, usize, u32, u8) -> u8);
            Seen::refusal(call(
                machine, a, a_len, b, b_len, c, c_len, m as u32, n as u8,
            ))
        }
        "read_z80" => {
            let call = of!(at, (Machine, In, usize, In, usize, u16) -> ByteRead);
            read(call(machine, a, a_len, b, b_len, m as u16))
        }
        "store_z80" => {
            let call = of!(at, (Machine, Out, usize, Out, usize, u16, u8) -> u8);
            Seen::refusal(call(machine, a, a_len, b, b_len, m as u16, n as u8))
        }
        "read_shadow" => {
            let call = of!(at, (Machine, In, usize, usize) -> ByteRead);
            read(call(machine, a, a_len, m as usize))
        }
        "write_shadow" => {
            let call = of!(at, (Machine, Out, usize, usize, u8) -> u8);
            Seen::refusal(call(machine, a, a_len, m as usize, n as u8))
        }
        "draw" => {
            let call = of!(at, (Machine, In, usize, In, usize, Out, usize) -> Drawn);
            drawn(call(machine, a, a_len, b, b_len, c, c_len))
        }
        "store_with_picture" => {
            let call = of!(at, (Machine, Out, usize, Out, usize, Out, usize, Out, usize, u32, u8) -> Stored);
            let stored = call(
                machine, a, a_len, b, b_len, c, c_len, d, d_len, m as u32, n as u8,
            );
            Seen::answer(stored.refusal, stored.marks)
        }
        "index_readers" => {
            let call = of!(at, (Machine, In, usize, In, usize, Out, usize) -> u8);
            Seen::refusal(call(machine, a, a_len, b, b_len, c, c_len))
        }
        "store_with_index" => {
            let call = of!(
                at,
                (Machine, Out, usize, Out, usize, Out, usize, Out, usize, Out, usize, u32, u8) -> Stored
            );
            let stored = call(
                machine, a, a_len, b, b_len, c, c_len, d, d_len, e, e_len, m as u32, n as u8,
            );
            Seen::answer(stored.refusal, stored.marks)
        }
        "glyph_part" => {
            let part = of!(at, (In, usize, u8) -> PartPlace)(a, a_len, m as u8);
            Seen {
                length: part.length as u64,
                ..Seen::answer(part.refusal, part.at)
            }
        }
        "scan_line" => {
            let call = of!(at, (Machine, In, usize, In, usize, usize, usize, Out, usize) -> u8);
            Seen::refusal(call(
                machine, a, a_len, b, b_len, m as usize, n as usize, c, c_len,
            ))
        }
        "list_lines" => {
            let call = of!(at, (Machine, In, usize, Out, usize) -> u8);
            Seen::refusal(call(machine, a, a_len, b, b_len))
        }
        "explain" => {
            let call = of!(at, (Machine, In, usize, In, usize, usize, usize) -> Why);
            let why = call(machine, a, a_len, b, b_len, m as usize, n as usize);
            Seen {
                explained: Explained {
                    answer: why.answer,
                    place: why.place,
                    kind: why.kind,
                    tore: why.tore,
                    linked: why.linked,
                    link: why.link,
                },
                ..Seen::refusal(why.refusal)
            }
        }
        _ => unreachable!("no function {name}"),
    }
}

fn read(read: ByteRead) -> Seen {
    Seen::answer(read.refusal, read.byte)
}

fn drawn(drawn: Drawn) -> Seen {
    Seen {
        wild: Wild {
            there: drawn.wild,
            row: drawn.wild_row,
        },
        ..Seen::answer(drawn.refusal, drawn.reads)
    }
}
