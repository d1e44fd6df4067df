//! The side of a library: its own copy of the buffers, with guard bytes around each, and its own machine.
use super::call::{Buffer, Call, Lent, Step, BUFFERS};
use super::model::Model;
use super::seen::mirrored;
use super::words::numbers;
use crate::chain::{PLACES, RECORD};
use crate::rainbow::{self, Request, Seen, Waiting};

const GUARD: usize = 64;

/// The byte that stands at a place outside of a buffer. No two buffers have the same, so that a copy that runs over
/// the end of two buffers is seen.
pub fn guard(buffer: Buffer, place: usize) -> u8 {
    (place * 37 + buffer as usize * 21 + 11) as u8
}

/// A buffer between guard bytes; after it there are enough to lend it doubled.
#[derive(Clone)]
pub struct Guarded {
    buffer: Buffer,
    bytes: Vec<u8>,
    listed: usize,
}

impl Guarded {
    fn new(buffer: Buffer, content: &[u8]) -> Self {
        let listed = content.len();
        let ahead = (0..GUARD).map(|place| guard(buffer, place));
        let after = (0..listed + GUARD).map(|place| guard(buffer, place));
        let bytes = ahead.chain(content.iter().copied()).chain(after).collect();
        Self {
            buffer,
            bytes,
            listed,
        }
    }

    pub fn content(&self) -> &[u8] {
        &self.bytes[GUARD..GUARD + self.listed]
    }

    pub fn content_mut(&mut self) -> &mut [u8] {
        &mut self.bytes[GUARD..GUARD + self.listed]
    }

    fn lend(&mut self, lent: Lent) -> Option<&mut [u8]> {
        let length = lent.length(self.listed)?;
        Some(&mut self.bytes[GUARD..GUARD + length])
    }

    /// The first guard byte that is not as it was. Those far after the buffer are looked at only if `far`.
    fn broken(&self, far: bool) -> Option<String> {
        let after = if far { self.listed + GUARD } else { GUARD };
        let ahead = &self.bytes[..GUARD];
        if let Some(place) = (0..GUARD).find(|place| ahead[*place] != guard(self.buffer, *place)) {
            let before = GUARD - place;
            return Some(format!("{before:X} bytes before its first byte"));
        }
        let end = &self.bytes[GUARD + self.listed..];
        let place = (0..after).find(|place| end[*place] != guard(self.buffer, *place))?;
        Some(format!("{place:X} bytes after its end"))
    }

    /// A fault of the library's side, to try the tester.
    pub fn break_guard(&mut self) {
        self.bytes[GUARD + self.listed] ^= 1;
    }
}

#[derive(Clone)]
pub struct Library {
    pub buffers: [Guarded; BUFFERS.len()],
    pub machine: rainbow::Machine,
    pub viewers: Waiting,
    calls: &'static rainbow::Library,
}

impl Library {
    /// The model's memories, machine and viewers again.
    pub fn new(model: &Model, calls: &'static rainbow::Library) -> Self {
        Self {
            buffers: BUFFERS.map(|buffer| Guarded::new(buffer, model.bytes(buffer))),
            machine: mirrored(&model.machine),
            viewers: model.viewers.numbers(),
            calls,
        }
    }

    pub fn content(&self, buffer: Buffer) -> &[u8] {
        self.buffers[buffer as usize].content()
    }

    /// Makes the call once. A machine that comes back is the machine from then on, but for power-up's; so are viewers.
    pub fn call(&mut self, step: &Step) -> Result<Seen, String> {
        let function = step.call.function().expect("a call of the library");
        let mut given = [0; 2];
        for (place, (_, number)) in given.iter_mut().zip(numbers(&step.call)) {
            *place = number;
        }
        let mut all: Vec<Option<&mut Guarded>> = self.buffers.iter_mut().map(Some).collect();
        let buffers = step.call.buffers().iter();
        let lent = buffers.map(|buffer| {
            let one = all[*buffer as usize].take();
            one.expect("each is lent once").lend(step.lent.of(*buffer))
        });
        let seen = self.calls.call(Request {
            function,
            machine: self.machine,
            viewers: self.viewers,
            lent: lent.collect(),
            numbers: given,
        })?;
        if let Call::VerticalTick | Call::WatchdogTick { .. } | Call::WritePort { .. } = step.call {
            self.machine = seen.machine;
        }
        if step.call.has_viewers() {
            self.viewers = seen.viewers;
        }
        Ok(seen)
    }

    /// The first byte of a buffer, or beside it, that is not as another side has it. `sides` are the names of the
    /// other and of this one.
    pub fn differs(
        &self,
        buffer: Buffer,
        other: &[u8],
        far: bool,
        sides: [&str; 2],
    ) -> Option<String> {
        let guarded = &self.buffers[buffer as usize];
        let name = buffer.name();
        if let Some(place) = guarded.broken(far) {
            return Some(format!("{name}: a byte outside of it changed, {place}"));
        }
        let ours = guarded.content();
        if ours == other {
            return None;
        }
        let place = (0..other.len()).find(|place| ours[*place] != other[*place])?;
        let ([that, this], theirs, mine) = (sides, other[place], ours[place]);
        let part = match buffer {
            Buffer::Picture | Buffer::Spare => format!(" (row {:X})", place / RECORD),
            Buffer::List => format!(" (line {:X})", place / 2),
            Buffer::Index | Buffer::SpareIndex if place >= PLACES => {
                format!(" (attribute {:X})", place - PLACES)
            }
            _ => String::new(),
        };
        Some(format!(
            "{name} at {place:X}{part}: {that} {theirs:02X}, {this} {mine:02X}"
        ))
    }
}
