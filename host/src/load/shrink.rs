//! Makes the calls that ended in a difference as few and as plain as they can be while there is one.
use super::call::{Call, Lent, Step};
use super::sides::{Differs, Sides, Tried};
use super::words::words;
use super::world::{Kind, World};
use crate::machine::Machine;
use crate::viewers::VIEWERS;
use std::fmt;

/// Calls that end in a difference.
pub struct Script {
    pub world: World,
    pub steps: Vec<Step>,
    pub differs: Differs,
}

impl fmt::Display for Script {
    fn fmt(&self, to: &mut fmt::Formatter) -> fmt::Result {
        let World { seed, kind, quiet } = self.world;
        let steps = self.steps.len();
        writeln!(
            to,
            "A difference after {steps} of these in the world {kind:?}, seed {seed:X}:"
        )?;
        if let Some(viewer) = quiet {
            writeln!(to, "(beside a run in which no viewer but {viewer} asks)")?;
        }
        for step in &self.steps {
            writeln!(to, "  {}", words(step))?;
        }
        write!(to, "{}", self.differs)
    }
}

/// Steps tried again in a world.
struct Trial {
    world: World,
    fresh: Sides,
}

impl Trial {
    fn new(world: World, tried: Tried) -> Self {
        let fresh = Sides::new(&world, tried);
        Self { world, fresh }
    }

    /// The steps up to the first difference, if there is one.
    fn script(&self, steps: &[Step]) -> Option<Script> {
        let mut sides = self.fresh.clone();
        let found = |steps: &[Step], differs| Script {
            world: self.world,
            steps: steps.to_vec(),
            differs,
        };
        for (at, step) in steps.iter().enumerate() {
            let ticks = sides.watched.ticks;
            if let Err(differs) = sides.step(step) {
                let mut script = found(&steps[..=at], differs);
                if let Call::WatchdogTick { times } = &mut script.steps[at].call {
                    *times = (sides.watched.ticks - ticks) as u32 + 1;
                }
                return Some(script);
            }
        }
        let differs = sides.compare_all().err()?;
        Some(found(steps, differs))
    }
}

/// The shortest script that removing and simplifying comes to, in a blank world if there is a difference in it too.
pub fn shrunk(world: World, steps: &[Step], tried: Tried) -> Option<Script> {
    let trial = Trial::new(world, tried);
    let blank = World {
        kind: Kind::Blank,
        ..world
    };
    let blank = Trial::new(blank, tried);
    let found = trial.script(steps)?;
    let in_blank = blank.script(&found.steps);
    let script = match in_blank {
        Some(script) => return Some(shortest(&blank, script)),
        None => shortest(&trial, found),
    };
    let in_blank = blank.script(&script.steps);
    Some(in_blank.map_or(script, |script| shortest(&blank, script)))
}

/// A plainer call may make others needless.
fn shortest(trial: &Trial, script: Script) -> Script {
    let script = plainer(trial, fewer(trial, script));
    fewer(trial, script)
}

/// Removes halves, then quarters, down to single calls, as long as a difference remains.
fn fewer(trial: &Trial, mut script: Script) -> Script {
    let mut piece = script.steps.len();
    while piece > 0 {
        let before = script.steps.len();
        let mut at = 0;
        while at < script.steps.len() {
            let mut steps = script.steps.clone();
            steps.drain(at..(at + piece).min(steps.len()));
            match trial.script(&steps) {
                Some(shorter) => script = shorter,
                None => at += piece,
            }
        }
        let again = piece == 1 && script.steps.len() < before;
        piece = if again { 1 } else { piece / 2 };
    }
    script
}

/// Tries each call with plainer numbers.
fn plainer(trial: &Trial, mut script: Script) -> Script {
    let mut at = 0;
    while at < script.steps.len() {
        for step in plainer_steps(&script.steps[at]) {
            let mut steps = script.steps.clone();
            if let Some(place) = steps.get_mut(at) {
                *place = step;
            }
            if let Some(plain) = trial.script(&steps) {
                script = plain;
            }
        }
        at += 1;
    }
    script
}

fn plainer_steps(step: &Step) -> Vec<Step> {
    let lent = step.lent;
    let plain = plainer_calls(&step.call).into_iter();
    let mut steps: Vec<Step> = plain.map(|call| Step { call, lent }).collect();
    for buffer in step.call.buffers() {
        let mut whole = *step;
        whole.lent.set(*buffer, Lent::Whole);
        steps.push(whole);
    }
    steps.retain(|other| other != step);
    steps
}

fn plainer_calls(call: &Call) -> Vec<Call> {
    match *call {
        Call::WatchdogTick { times } => fewer_ticks(times),
        Call::WritePort { port, .. } => vec![Call::WritePort { port, code: 0 }],
        Call::Store8088 { address, .. } => vec![Call::Store8088 { address, byte: 0 }],
        Call::StoreZ80 { address, .. } => vec![Call::StoreZ80 { address, byte: 0 }],
        Call::WriteShadow { place, .. } => vec![Call::WriteShadow { place, value: 0 }],
        Call::StoreWithPicture { address, .. } => {
            vec![Call::StoreWithPicture { address, byte: 0 }]
        }
        Call::StoreForViewers { address, .. } => {
            vec![Call::StoreForViewers { address, byte: 0 }]
        }
        Call::StoreWithIndex { address, .. } => vec![Call::StoreWithIndex { address, byte: 0 }],
        Call::StoreWithIndexForViewers { address, byte } => {
            vec![
                Call::StoreWithIndexForViewers { address, byte: 0 },
                Call::StoreWithIndex { address, byte },
            ]
        }
        Call::AlterIndex { entry, .. } => {
            vec![Call::AlterIndex { entry, byte: 0 }, Call::IndexReaders]
        }
        Call::FillIndex { .. } => vec![Call::FillIndex { byte: 0 }, Call::IndexReaders],
        Call::StrewIndex { .. } | Call::OtherIndex { .. } => {
            vec![Call::FillIndex { byte: 0 }, Call::IndexReaders]
        }
        Call::Ask { .. } => vec![Call::Ask { viewer: 0 }],
        Call::SetViewers(_) => vec![Call::StartViewers, Call::SetViewers([0; VIEWERS])],
        Call::ScanLine { row, scan } => {
            vec![
                Call::ScanLine { row: 0, scan },
                Call::ScanLine { row, scan: 1 },
            ]
        }
        Call::Explain { row, column } => {
            vec![
                Call::Explain { row: 0, column },
                Call::Explain { row: 1, column },
                Call::Explain { row, column: 0 },
            ]
        }
        Call::IsMarked { row, .. } => vec![Call::IsMarked { marks: 0, row }],
        Call::AlterPicture { place, .. } => {
            vec![Call::AlterPicture { place, byte: 0 }, Call::Draw]
        }
        Call::StrewPicture { .. } | Call::OtherPicture { .. } => vec![Call::Draw],
        Call::SetMachine(Machine { latch, columns, .. }) => {
            let plain = Machine::power_up();
            vec![
                Call::SetMachine(Machine { columns, ..plain }),
                Call::SetMachine(Machine { latch, ..plain }),
                Call::SetMachine(plain),
            ]
        }
        _ => Vec::new(),
    }
}

/// The fewest last, since the last that will do is taken. Where ticks are made only to come out of a reset, a machine
/// that is in none will do, and the other ticks are needless.
fn fewer_ticks(times: u32) -> Vec<Call> {
    let few = [256, 255, 130, 129, 128, 127, 126, 125, 2, 1];
    let fewer = [times - 1].into_iter().chain(few);
    let fewer = fewer
        .filter(|fewer| *fewer > 0 && *fewer < times)
        .map(|times| Call::WatchdogTick { times });
    let plain = Machine::power_up();
    let out_of_reset = [132, 80].map(|columns| Call::SetMachine(Machine { columns, ..plain }));
    out_of_reset.into_iter().chain(fewer).collect()
}
