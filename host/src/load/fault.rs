//! Faults that are put into the tester, to see that it finds each of them and shrinks what found it.
use super::call::{Buffer, Call};
use super::index_fault;
use super::library::Library;
use super::list_fault;
use super::model::Model;
use super::seen::mirrored;
use super::viewer_fault;
use super::why_fault;
use crate::chain::{wild_rows, PAIRS_AT, PICTURE, PLACES, RECORD, ROWS};
use crate::dots::SCANS;
use crate::machine::Machine;
use crate::rainbow::{Seen, Waiting, Wild, CELL};
use crate::screen::LIST;
use crate::viewers::Viewers;

/// Which fault is put in; 0 is none.
#[derive(Clone, Copy, Debug, PartialEq, Eq)]
pub struct Fault(pub usize);

impl Fault {
    /// The model's answer, with the fault.
    pub fn call(self, model: &mut Model, call: &Call) -> Seen {
        match (self.0, call) {
            (1, Call::Draw) => high_byte_first(model),
            (3, Call::ReadZ80 { address: 0x800 }) => model.right(&Call::ReadZ80 { address: 0x7FF }),
            (4, Call::WritePort { port, code }) if port & 0xF == 0xC && code >> 2 == 1 => {
                let (port, code) = (*port, code & 3);
                model.right(&Call::WritePort { port, code })
            }
            (5, Call::ScanLine { .. }) => not_underlined(model, call),
            (8, Call::StoreWithPicture { .. }) => first_row_only(model, call),
            (17, Call::ReadZ80 { .. } | Call::StoreZ80 { .. }) => {
                holding(model, call, model.machine.held ^ 1)
            }
            (18, Call::ReadZ80 { .. } | Call::StoreZ80 { .. }) => {
                holding(model, call, model.machine.held >> 1)
            }
            (20, Call::StoreZ80 { .. }) => holding(model, call, RUNS),
            (27, Call::WritePort { code: 0x09, .. }) => ended_by(model, call),
            (28, Call::ReadShadow { .. }) => out_of_reset(model, call),
            (33..=40, Call::ListLines) => list_fault::call(self.0, model),
            (51..=61, _) if call.has_viewers() => viewer_fault::call(self.0, model, call),
            (index_fault::FIRST.., _) if call.has_index() => index_fault::call(self.0, model, call),
            (42..=48 | 50, Call::Explain { row, column }) => {
                why_fault::call(self.0, model, *row, *column)
            }
            _ => self.answer(call, model),
        }
    }

    fn answer(self, call: &Call, model: &mut Model) -> Seen {
        let before = model.machine;
        let mut seen = model.right(call);
        if seen.refusal == 0 && self.changes(call, &before, &mut model.machine) {
            seen.machine = mirrored(&model.machine);
        }
        match (self.0, call) {
            (2, Call::StoreWithPicture { .. }) => seen.value &= !(1 << (ROWS - 1)),
            (6, Call::WriteShadow { .. }) if seen.refusal == 5 => model.shadow[0] ^= 1,
            (7, Call::Draw) if seen.refusal == 0 => seen.value += 1,
            (12, Call::Blanked) if rare(&model.machine) => seen.value = 1,
            (13, Call::ScrollLatch) => seen.value = model.machine.latch.into(),
            (15, Call::Draw) if seen.wild.there != 0 => seen.wild = last_wild(model),
            (16, Call::Draw) if seen.refusal == 0 && seen.wild.there == 0 => {
                seen.wild = Wild::named(0)
            }
            (19, Call::ReadZ80 { .. } | Call::StoreZ80 { .. })
                if seen.refusal == 1 && !model.machine.z80_runs() =>
            {
                seen.refusal = 7
            }
            (21, Call::StoreZ80 { .. }) if seen.refusal == 7 => {
                holding(model, call, RUNS);
            }
            (
                29,
                Call::Read8088 { address }
                | Call::Store8088 { address, .. }
                | Call::StoreWithPicture { address, .. },
            ) if seen.refusal == 8 => {
                let read = Call::Read8088 { address: *address };
                if out_of_reset(model, &read).refusal == 2 {
                    seen.refusal = 2;
                }
            }
            (30, _) if call.by_8088() && seen.refusal == 1 && before.reset => seen.refusal = 8,
            _ => {}
        }
        seen
    }

    /// A fault in what an accepted call makes of the machine; whether it has one.
    fn changes(self, call: &Call, before: &Machine, after: &mut Machine) -> bool {
        let turned = before.reset != after.reset;
        match (self.0, call) {
            (22, Call::WatchdogTick { .. }) if after.count == 127 => {
                (after.count, after.reset) = (0, !after.reset)
            }
            (23, Call::WatchdogTick { .. }) if turned && before.count == 127 => {
                (after.count, after.reset) = (128, before.reset)
            }
            (24, Call::WatchdogTick { .. } | Call::WritePort { .. }) if !after.watchdog => {
                after.count = before.count
            }
            (25, Call::WritePort { port: 0x0C, .. }) => after.count = 0,
            (26, Call::WatchdogTick { .. }) if turned && before.reset => after.watchdog = false,
            (31, Call::VerticalTick) => after.watchdog_tick(),
            _ => return false,
        }
        true
    }

    /// Whether the tester sees that the column setting has changed, so that the index has to be worked out again.
    pub fn sees_moves(self) -> bool {
        self.0 != index_fault::UNSEEN_MOVE
    }

    /// Faults of the library's side, and some that both sides have.
    pub fn after(self, call: &Call, library: &mut Library, model: &mut Model) {
        let [picture, list] = [Buffer::Picture, Buffer::List].map(|buffer| buffer as usize);
        let picture = &mut library.buffers[picture];
        match (self.0, call) {
            (9, Call::Draw) => picture.break_guard(),
            (41, Call::ListLines) => {
                library.buffers[list].content_mut()[LIST - 1] = SCANS as u8 + 1;
                model.list[LIST - 1] = SCANS as u8 + 1;
            }
            (10, Call::Draw) => {
                picture.content_mut()[PICTURE - 1] = 0x0D;
                model.picture[PICTURE - 1] = 0x0D;
            }
            (
                32,
                Call::WritePort {
                    port: 0x0C,
                    code: 0x08,
                },
            ) => {
                library.machine.count = 0;
                model.machine.count = 0;
            }
            _ => {}
        }
    }

    /// A fault that both sides have in what a store with an index answers and leaves.
    pub fn of_index(
        self,
        call: &Call,
        answers: &mut [&mut Seen; 2],
        library: &mut Library,
        model: &mut Model,
    ) {
        if let (Some((address, _)), 0) = (call.stores_with_index(), answers[1].refusal) {
            index_fault::on_both_sides(self.0, address, answers, library, model);
        }
    }

    /// A fault that every side has in the viewers that came back.
    pub fn of_viewers(self, call: &Call, seen: &Seen, viewers: &mut Waiting) {
        viewer_fault::on_both_sides(self.0, call, seen, viewers);
    }

    /// The same in the model's viewers.
    pub fn of_model(self, call: &Call, seen: &Seen, model: &mut Model) {
        let mut numbers = model.viewers.numbers();
        self.of_viewers(call, seen, &mut numbers);
        if numbers != model.viewers.numbers() {
            model.viewers = Viewers::given(numbers);
        }
    }

    /// A fault of the second library.
    pub fn of_second(self, call: &Call, seen: &mut Seen) {
        if let (14, Call::DotsOfLine, 1188) = (self.0, call, seen.value) {
            seen.value = 1187;
        }
    }

    /// A fault that both sides have in an answer.
    pub fn answered(self, call: &Call, seen: &mut Seen) {
        match (self.0, call) {
            (11, Call::StoreWithPicture { .. }) if seen.refusal == 0 => seen.value |= 1,
            (49, Call::Explain { .. }) if seen.explained.answer == CELL => {
                seen.explained.place = (seen.explained.place + 1) % PLACES as u16;
            }
            _ => {}
        }
    }
}

/// A state that takes several calls to come to.
fn rare(machine: &Machine) -> bool {
    let Machine {
        columns,
        hertz,
        latch,
        ..
    } = *machine;
    let flags = machine.reverse && machine.blink && machine.interrupt;
    (columns, hertz, latch) == (132, 50, 9) && flags
}

fn last_wild(model: &Model) -> Wild {
    let (view, columns) = (&model.view, model.machine.columns.into());
    let rows = wild_rows(&view.screen, &view.attribute, columns).unwrap_or_default();
    rows.last().map_or(Wild::default(), |row| Wild::named(*row))
}

/// A byte of port 0A by which the Z80 runs.
const RUNS: u8 = 0x01;

/// The call as it is while port 0A holds another byte.
fn holding(model: &mut Model, call: &Call, held: u8) -> Seen {
    let kept = model.machine.held;
    model.machine.held = held;
    let seen = model.right(call);
    model.machine.held = kept;
    seen
}

/// The call as it is while the 8088 is not in reset.
fn out_of_reset(model: &mut Model, call: &Call) -> Seen {
    let kept = model.machine.reset;
    model.machine.reset = false;
    let seen = model.right(call);
    model.machine.reset = kept;
    seen
}

/// A write that is accepted in reset and ends it.
fn ended_by(model: &mut Model, call: &Call) -> Seen {
    let kept = model.machine;
    model.machine.reset = false;
    let seen = model.right(call);
    match seen.refusal {
        0 => seen,
        _ => {
            model.machine = kept;
            model.right(call)
        }
    }
}

fn high_byte_first(model: &mut Model) -> Seen {
    let end = model.view.screen.iter().position(|byte| *byte == 0xFF);
    let end = end.unwrap_or(0);
    let (low, high) = ((end + 1) % PLACES, (end + 2) % PLACES);
    let lent = model.view.screen.len() == PLACES;
    if lent {
        model.view.screen.swap(low, high);
    }
    let seen = model.right(&Call::Draw);
    if lent {
        model.view.screen.swap(low, high);
    }
    seen
}

fn not_underlined(model: &mut Model, call: &Call) -> Seen {
    let kept = model.picture.clone();
    for record in model.picture.chunks_exact_mut(RECORD) {
        for attribute in record[PAIRS_AT..].iter_mut().skip(1).step_by(2) {
            *attribute |= 0b1000;
        }
    }
    let seen = model.right(call);
    model.picture = kept;
    seen
}

pub fn first_row_only(model: &mut Model, call: &Call) -> Seen {
    let kept = model.picture.clone();
    let mut seen = model.right(call);
    if seen.value != 0 {
        let first = seen.value.trailing_zeros() as usize;
        let after = (first + 1) * RECORD;
        model.picture[after..].copy_from_slice(&kept[after..]);
        seen.value = 1 << first;
    }
    seen
}
