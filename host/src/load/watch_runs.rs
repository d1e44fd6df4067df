//! Runs in which the watchdog resets the 8088: ticks of its clock, what begins its count anew, and what is refused.
use super::call::{Call, Step};
use super::choose;
use super::model::Model;
use crate::hard::Chance;
use crate::machine::Machine;

/// How many ticks the watchdog's clock made, and how many resets began and ended at them.
#[derive(Clone, Copy, Default)]
pub struct Watched {
    pub ticks: u64,
    pub begun: u64,
    pub ended: u64,
}

impl Watched {
    /// A tick, with the reset before it and after it.
    pub fn count(&mut self, before: u8, after: u8) {
        self.ticks += 1;
        self.begun += u64::from(before < after);
        self.ended += u64::from(before > after);
    }

    pub fn add(&mut self, other: &Self) {
        self.ticks += other.ticks;
        self.begun += other.begun;
        self.ended += other.ended;
    }
}

/// How a run goes.
#[derive(Clone, Copy, Debug, PartialEq, Eq)]
pub enum Manner {
    /// Ticks up to the 128th, or beside it, and then any code.
    Beside,
    /// A few ticks at a time, with a 09 now and then: often in time, and often too late.
    Late,
    /// Hardly ever a 09, and many other codes between the ticks.
    Codes,
    /// Enabled and disabled again and again.
    Switched,
    /// Most of the calls are made in reset.
    InReset,
    /// Most writes are refused: by a length, a port, a code, or two edges.
    Refused,
}

pub const MANNERS: [Manner; 6] = [
    Manner::Beside,
    Manner::Late,
    Manner::Codes,
    Manner::Switched,
    Manner::InReset,
    Manner::Refused,
];

/// Codes of the DC012, and one that it has not.
const CODES: usize = 0x0D;

/// So many ticks that a reset begins or ends at the last of them, or would at the next, or at the one before; now and
/// then a few or very many.
pub fn ticks(chance: &mut Chance, machine: &Machine) -> Call {
    let left = 128 - u32::from(machine.count.min(127));
    let times = match chance.below(12) {
        0 => 1 + chance.below(8),
        1 => 1 + chance.below(600),
        2 | 3 => left as usize - 1,
        4 | 5 => left as usize + 1,
        6 => left as usize + 128,
        _ => left as usize,
    };
    Call::WatchdogTick {
        times: times.max(1) as u32,
    }
}

fn few_ticks(chance: &mut Chance, under: usize) -> Call {
    let times = 1 + chance.below(under) as u32;
    Call::WatchdogTick { times }
}

fn write(port: u16, code: u8) -> Call {
    Call::WritePort { port, code }
}

/// A code of the DC012 that is most often not 09.
fn other_code(chance: &mut Chance) -> u8 {
    match chance.below(CODES) as u8 {
        0x09 if chance.below(8) > 0 => 0x08,
        code => code,
    }
}

/// A write to a port of the DC012, or one that must leave the watchdog as it is.
fn any_write(chance: &mut Chance) -> Call {
    let code = chance.below(CODES) as u8;
    match chance.below(8) {
        0..=3 => write(0x0C, code),
        4 => write(0x10C, code),
        5 => write(0x0A, chance.byte()),
        6 => write(0x04, code << 4),
        _ => write(chance.of(&[0x05, 0x0B, 0x0D, 0x109, 0x20C]), code),
    }
}

/// A write that is most often refused, where another code, port or length would make it an acknowledgement, an enabling
/// or a disabling.
fn refused(chance: &mut Chance) -> Step {
    match chance.below(4) {
        0 => write(chance.of(&[0x09, 0x0E, 0x8C, 0x20C]), 0x09).into(),
        1 => write(chance.of(&[0x0C, 0x10C]), chance.byte() | 0x0C).into(),
        2 => write(0x0A, chance.byte() | 0xC0).into(),
        _ => {
            let call = write(chance.of(&[0x0C, 0x10C]), other_code(chance));
            choose::wrongly_lent(chance, call)
        }
    }
}

/// What a step may be beside ticks and writes.
fn beside(chance: &mut Chance, model: &Model) -> Step {
    let place = chance.below(0x102);
    match chance.below(24) {
        0 => choose::any(chance, model).into(),
        1..=4 => {
            let call = choose::any(chance, model);
            match call.buffers() {
                [] => Call::VerticalTick.into(),
                _ => choose::wrongly_lent(chance, call),
            }
        }
        5..=8 => Call::VerticalTick.into(),
        9..=11 => Call::ReadShadow { place }.into(),
        12..=14 => {
            let value = chance.byte();
            Call::WriteShadow { place, value }.into()
        }
        15..=17 => {
            let (address, byte) = (chance.below(0x20000) as u32, chance.byte());
            Call::Store8088 { address, byte }.into()
        }
        18..=20 => {
            let address = chance.below(0x10000) as u16;
            Call::ReadZ80 { address }.into()
        }
        _ => {
            let address = 0xED000 + chance.below(0x4000) as u32;
            Call::Read8088 { address }.into()
        }
    }
}

/// The next step of a run.
pub fn step(chance: &mut Chance, model: &Model, manner: Manner) -> Step {
    let machine = &model.machine;
    if chance.below(8) == 0 {
        return beside(chance, model);
    }
    // In every manner but one a reset is soon over.
    let leave = machine.reset && manner != Manner::InReset && chance.below(4) == 0;
    let call = match (manner, chance.below(8)) {
        _ if leave => ticks(chance, machine),
        (Manner::Beside, 0..=3) => ticks(chance, machine),
        (Manner::Late, 0..=5) => few_ticks(chance, 50),
        (Manner::Late, 6) => write(0x0C, 0x09),
        (Manner::Codes, 0..=3) => few_ticks(chance, 20),
        (Manner::Codes, 4..=6) => write(0x0C, other_code(chance)),
        (Manner::Switched, 0..=2) => few_ticks(chance, 200),
        (Manner::Switched, _) => write(chance.of(&[0x0C, 0x10C]), chance.below(CODES) as u8),
        (Manner::InReset, 1) if !machine.reset => any_write(chance),
        (Manner::InReset, _) if !machine.reset && !machine.watchdog => write(0x0C, 0x00),
        (Manner::InReset, _) if !machine.reset => ticks(chance, machine),
        (Manner::InReset, 0) => few_ticks(chance, 64),
        (Manner::Refused, 0..=2) => ticks(chance, machine),
        (Manner::Refused, 3..=6) => return refused(chance),
        _ => any_write(chance),
    };
    call.into()
}

#[cfg(test)]
mod tests {
    use super::super::fault::Fault;
    use super::super::world::{Kind, World};
    use super::*;
    use crate::history::History;

    /// What a run came to.
    #[derive(Default)]
    struct Came {
        ticks: u64,
        begun: u64,
        ended: u64,
        /// By number; 0 is accepted.
        writes: [u64; 9],
        accesses: [u64; 9],
    }

    /// A run of at least so many ticks, by the model by fields. After each of its calls, the count, the reset and what
    /// was refused are those of the history, which counts nothing.
    fn run(manner: Manner, ticks: u64) -> Came {
        let mut chance = Chance(0x9E3779B97F4A7C15 ^ manner as u64);
        let kind = Kind::Blank;
        let world = World {
            seed: 1,
            kind,
            quiet: None,
        };
        let mut model = world.model();
        model.machine = Machine::power_up();
        let mut history = History::of(&model.machine).unwrap();
        let mut came = Came::default();
        while came.ticks < ticks {
            let step = step(&mut chance, &model, manner);
            for _ in 0..step.call.times() {
                let (before, in_reset) = (model.machine, history.in_reset());
                let seen = model.call(&step, Fault(0));
                let by_8088 = step.call.by_8088();
                let refused_by_8 = in_reset && by_8088 && step.whole();
                assert_eq!(seen.refusal == 8, refused_by_8, "{step:?}");
                if seen.refusal != 0 {
                    assert_eq!(model.machine, before);
                }
                match step.call {
                    Call::WatchdogTick { .. } => {
                        history.tick();
                        came.ticks += 1;
                        came.begun += u64::from(model.machine.reset && !before.reset);
                        came.ended += u64::from(before.reset && !model.machine.reset);
                    }
                    Call::WritePort { port, code } => {
                        came.writes[usize::from(seen.refusal)] += 1;
                        if seen.refusal == 0 {
                            history.written(port, code);
                        }
                    }
                    _ if by_8088 => came.accesses[usize::from(seen.refusal)] += 1,
                    _ => {}
                }
                let by_fields = (model.machine.reset, model.machine.count);
                assert_eq!(by_fields, (history.in_reset(), history.count()));
            }
        }
        came
    }

    /// The model by fields and the history agree over 100,000 ticks in each manner; and the runs do come to resets, to
    /// calls refused in them, and to writes that are refused by lengths, ports, codes and edges.
    #[test]
    fn fields_and_history_agree() {
        let mut writes = [0; 9];
        for manner in MANNERS {
            let came = run(manner, 100_000);
            let Came { begun, ended, .. } = came;
            assert!(begun > 50 && begun - ended <= 1, "{manner:?}: {begun}");
            for number in [0, 8] {
                assert!(came.writes[number] > 30, "{manner:?}: {:?}", came.writes);
                assert!(came.accesses[number] > 5, "{manner:?}: {:?}", came.accesses);
            }
            for (sum, writes) in writes.iter_mut().zip(came.writes) {
                *sum += writes;
            }
        }
        for number in [1, 3, 4, 6] {
            assert!(writes[number] > 30, "{number}: {writes:?}");
        }
    }
}
