//! The model's side: the model of the documents, with its own copy of the buffers and of the machine.
use super::call::{Buffer, Call, Lengths, Step, BUFFERS};
use super::fault::Fault;
use super::library::guard;
use super::seen::{mirrored, seen, seen_drawn, seen_explained};
use crate::chain::{self, Drawn, PICTURE};
use crate::dots;
use crate::index::{self, INDEX};
use crate::machine::Machine;
use crate::memories::{self, View8088};
use crate::rainbow::{self, Seen};
use crate::viewers::Viewers;
use crate::why::{Walk, Why};
use crate::{mending, refusal, screen, Answer};

#[derive(Clone)]
pub struct Model {
    pub view: View8088,
    pub private: Vec<u8>,
    pub table: Vec<u8>,
    pub nvm: Vec<u8>,
    pub shadow: Vec<u8>,
    pub picture: Vec<u8>,
    pub line: Vec<u8>,
    pub list: Vec<u8>,
    pub index: Vec<u8>,
    pub spare: Vec<u8>,
    pub spare_index: Vec<u8>,
    pub viewers: Viewers,
    pub machine: Machine,
    /// The walk that was asked last, since many cells of it may be asked one after the other.
    pub walk: Walk,
}

impl Model {
    pub fn bytes(&self, buffer: Buffer) -> &[u8] {
        match buffer {
            Buffer::Shared => &self.view.shared,
            Buffer::Private => &self.private,
            Buffer::Screen => &self.view.screen,
            Buffer::Attribute => &self.view.attribute,
            Buffer::Table => &self.table,
            Buffer::Nvm => &self.nvm,
            Buffer::Shadow => &self.shadow,
            Buffer::Picture => &self.picture,
            Buffer::Line => &self.line,
            Buffer::List => &self.list,
            Buffer::Index => &self.index,
            Buffer::Spare => &self.spare,
            Buffer::SpareIndex => &self.spare_index,
        }
    }

    pub fn bytes_mut(&mut self, buffer: Buffer) -> &mut Vec<u8> {
        match buffer {
            Buffer::Shared => &mut self.view.shared,
            Buffer::Private => &mut self.private,
            Buffer::Screen => &mut self.view.screen,
            Buffer::Attribute => &mut self.view.attribute,
            Buffer::Table => &mut self.table,
            Buffer::Nvm => &mut self.nvm,
            Buffer::Shadow => &mut self.shadow,
            Buffer::Picture => &mut self.picture,
            Buffer::Line => &mut self.line,
            Buffer::List => &mut self.list,
            Buffer::Index => &mut self.index,
            Buffer::Spare => &mut self.spare,
            Buffer::SpareIndex => &mut self.spare_index,
        }
    }

    /// Makes the call once. Buffers of other lengths are lent as copies, and what they then hold comes back.
    pub fn call(&mut self, step: &Step, fault: Fault) -> Seen {
        if step.whole() {
            return fault.call(self, &step.call);
        }
        let mut lent = self.clone();
        lent.resize(&step.lent);
        let seen = fault.call(&mut lent, &step.call);
        self.machine = lent.machine;
        self.viewers = lent.viewers.clone();
        for buffer in BUFFERS {
            let from = lent.bytes(buffer);
            let same = from.len().min(buffer.listed());
            self.bytes_mut(buffer)[..same].copy_from_slice(&from[..same]);
        }
        seen
    }

    fn resize(&mut self, lent: &Lengths) {
        for buffer in BUFFERS {
            let listed = buffer.listed();
            let length = lent.of(buffer).length(listed).unwrap_or(0);
            let bytes = self.bytes_mut(buffer);
            bytes.truncate(length);
            bytes.extend((listed..length).map(|place| guard(buffer, place - listed)));
        }
    }

    /// What the documents say of the call.
    pub fn right(&mut self, call: &Call) -> Seen {
        let machine = self.machine;
        match *call {
            Call::Version => Seen::value(rainbow::header_version()),
            Call::PowerUp => Seen::machine(0, mirrored(&Machine::power_up())),
            Call::VerticalTick => {
                self.machine.interrupt = true;
                Seen::machine(0, mirrored(&self.machine))
            }
            Call::WatchdogTick { .. } => {
                self.machine.watchdog_tick();
                Seen::machine(0, mirrored(&self.machine))
            }
            Call::Columns => Seen::value(machine.columns),
            Call::Z80Runs => Seen::value(machine.z80_runs()),
            Call::Blanked => Seen::value(machine.blanked()),
            Call::Graphics => Seen::value(machine.graphics()),
            Call::ScrollLatch => Seen::value(machine.scroll_latch()),
            Call::DotsOfLine => Seen::value(dots::line_dots(&machine)),
            Call::IsMarked { marks, row } => Seen::value(mending::is_marked(marks, row)),
            _ if call.has_viewers() => {
                let seen = self.serving_call(call);
                let viewers = self.viewers.numbers();
                Seen { viewers, ..seen }
            }
            _ => self.lending_call(call),
        }
    }

    /// A call that serves viewers: a refused one leaves them as they were.
    fn serving_call(&mut self, call: &Call) -> Seen {
        match *call {
            Call::StartViewers => {
                self.viewers = Viewers::start();
                Seen::default()
            }
            Call::Ask { viewer } => seen(self.viewers.ask(viewer)),
            Call::DrawForViewers => {
                let drawn = self.draw(Buffer::Picture);
                if drawn.is_ok() {
                    self.viewers.drawn();
                }
                seen_drawn(drawn)
            }
            Call::StoreForViewers { address, byte } => {
                let (view, picture) = (&mut self.view, &mut self.picture);
                let stored = mending::store(view, picture, &self.machine, address, byte);
                self.told(stored)
            }
            Call::StoreWithIndexForViewers { address, byte } => {
                let stored = self.store_with_index(address, byte);
                self.told(stored)
            }
            _ => unreachable!("no call that serves viewers: {call:?}"),
        }
    }

    /// A store's marks, which wait for each viewer.
    fn told(&mut self, stored: Answer<u32>) -> Seen {
        if let Ok(marks) = stored {
            self.viewers.stored(marks);
        }
        seen(stored)
    }

    fn store_with_index(&mut self, address: u32, byte: u8) -> Answer<u32> {
        let (view, picture, index) = (&mut self.view, &mut self.picture, &mut self.index);
        index::store(view, picture, index, &self.machine, address, byte)
    }

    fn lending_call(&mut self, call: &Call) -> Seen {
        match *call {
            Call::WritePort { port, code } => {
                let (shadow, nvm) = (&mut self.shadow, &mut self.nvm);
                let written = self.machine.write(shadow, nvm, port, code);
                Seen::machine(refusal(&written), mirrored(&self.machine))
            }
            Call::Draw => seen_drawn(self.draw(Buffer::Picture)),
            Call::DrawAfresh => seen_drawn(self.draw(Buffer::Spare)),
            Call::IndexReaders => Seen::refusal(refusal(&self.index_readers(Buffer::Index))),
            Call::IndexAfresh => Seen::refusal(refusal(&self.index_readers(Buffer::SpareIndex))),
            Call::StoreWithIndex { address, byte } => seen(self.store_with_index(address, byte)),
            Call::GlyphPart { code } => self.glyph_part(code),
            Call::ScanLine { row, scan } => {
                let (machine, line) = (self.machine, &mut self.line);
                let (picture, table) = (&self.picture, &self.table);
                let drawn = dots::scan_line(&machine, picture, table, row, scan, line);
                Seen::refusal(refusal(&drawn))
            }
            Call::ListLines => {
                let listed = screen::list_lines(&self.machine, &self.picture, &mut self.list);
                Seen::refusal(refusal(&listed))
            }
            Call::Explain { row, column } => seen_explained(self.explain(row, column)),
            Call::ReadShadow { place } => {
                seen(memories::shadow_read(&self.machine, &self.shadow, place))
            }
            Call::WriteShadow { place, value } => {
                let (machine, shadow) = (&self.machine, &mut self.shadow);
                let written = memories::shadow_write(machine, shadow, place, value);
                Seen::refusal(refusal(&written))
            }
            _ => self.memory_call(call),
        }
    }

    fn memory_call(&mut self, call: &Call) -> Seen {
        let (view, private) = (&mut self.view, &mut self.private);
        let machine = &self.machine;
        match *call {
            Call::Read8088 { address } => seen(view.read(machine, address)),
            Call::Store8088 { address, byte } => {
                let stored = view.store(machine, address, byte);
                Seen::refusal(refusal(&stored))
            }
            Call::ReadZ80 { address } => {
                let read = memories::z80_read(machine, private, &mut view.shared, address);
                seen(read)
            }
            Call::StoreZ80 { address, byte } => {
                let stored = memories::z80_store(machine, private, &mut view.shared, address, byte);
                Seen::refusal(refusal(&stored))
            }
            Call::StoreWithPicture { address, byte } => {
                let picture = &mut self.picture;
                seen(mending::store(view, picture, machine, address, byte))
            }
            _ => unreachable!("no call: {call:?}"),
        }
    }

    fn draw(&mut self, into: Buffer) -> Answer<Drawn> {
        let columns = self.machine.columns.into();
        let drawn = chain::draw(&self.view.screen, &self.view.attribute, columns)?;
        let picture = self.bytes_mut(into);
        if picture.len() != PICTURE {
            return Err(1);
        }
        picture.copy_from_slice(&drawn.picture);
        Ok(drawn)
    }

    fn index_readers(&mut self, into: Buffer) -> Answer<()> {
        let columns = self.machine.columns.into();
        let fresh = index::index(&self.view.screen, &self.view.attribute, columns)?;
        let index = self.bytes_mut(into);
        if index.len() != INDEX {
            return Err(1);
        }
        index.copy_from_slice(&fresh);
        Ok(())
    }

    fn explain(&mut self, row: usize, column: usize) -> Answer<Why> {
        let (screen, attribute) = (&self.view.screen, &self.view.attribute);
        let columns = self.machine.columns.into();
        if !self.walk.is_of(screen, attribute, columns) {
            self.walk = Walk::of(screen, attribute, columns)?;
        }
        self.walk.why(row, column)
    }

    /// The part as the place that it has in the table.
    fn glyph_part(&self, code: u8) -> Seen {
        match dots::part(&self.table, code) {
            Err(number) => Seen::refusal(number),
            Ok(part) => Seen {
                length: part.len() as u64,
                ..Seen::value(part.as_ptr() as usize - self.table.as_ptr() as usize)
            },
        }
    }
}
