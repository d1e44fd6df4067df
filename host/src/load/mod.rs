//! Drives a library and the model of the documents with the same calls, and compares what each answers and every byte
//! that each was lent.
mod aim;
mod by_hand;
mod call;
mod choose;
mod copies;
mod demands;
mod desk;
mod fault;
mod faults;
mod index_fault;
mod index_sweep;
mod indexed;
mod library;
mod list_fault;
mod list_sweep;
mod model;
mod seen;
mod shrink;
mod sides;
mod sweep;
mod viewer_fault;
mod viewer_sweep;
mod watch_runs;
mod watch_sweep;
mod why_fault;
mod why_sweep;
mod words;
mod world;

pub use fault::Fault;
pub use faults::FAULTS;
pub use shrink::Script;
pub use sides::Tried;

use crate::chain::ROWS;
use crate::dots::SCANS;
use crate::hard::Chance;
use crate::machine::Machine;
use crate::rainbow::{Seen, FUNCTIONS};
use crate::REFUSALS;
use call::{Call, Step};
use copies::Told;
use desk::Promises;
use indexed::Counts;
use sides::Sides;
use std::thread::spawn;
use watch_runs::{Watched, MANNERS};
use world::World;

/// How many calls there were of each function, how many were answered by each number of refusal, of all and of the
/// Z80's, how many drawings named each row, how many lists there were of a screen at rest and of one that scrolls, how
/// many cells were explained by each answer, how often the desk's promise was tried, what viewers were told, what
/// stores with an index there were, and what the watchdog did.
#[derive(Default)]
pub struct Tally {
    pub calls: [u64; FUNCTIONS.len()],
    /// By number; 0 is accepted.
    pub refusals: [u64; REFUSALS + 1],
    /// The Z80's reads and stores, by number.
    pub z80: [u64; REFUSALS + 1],
    /// By the row whose link is wild; the last are those that named none. Refused ones do not count.
    pub drawings: [u64; ROWS + 1],
    /// At rest, and scrolled. Refused ones do not count.
    pub lists: [u64; 2],
    /// By the number of the answer; 0 are the refused ones.
    pub explained: [u64; 5],
    pub promises: Promises,
    pub told: Told,
    pub indexed: Counts,
    pub watched: Watched,
}

impl Tally {
    /// All calls; ticks of the watchdog's clock that were made one after the other count as one.
    pub fn total(&self) -> u64 {
        self.calls.iter().sum()
    }

    /// Counts a call; `list` is as it left it.
    fn count(&mut self, call: &Call, answer: &Seen, list: &[u8]) {
        let Some(function) = call.function() else {
            return;
        };
        self.calls[function] += 1;
        self.refusals[usize::from(answer.refusal)] += 1;
        if let Call::ReadZ80 { .. } | Call::StoreZ80 { .. } = call {
            self.z80[usize::from(answer.refusal)] += 1;
        }
        if let (Call::Draw | Call::DrawAfresh | Call::DrawForViewers, 0) = (call, answer.refusal) {
            let named = answer.wild.there != 0;
            self.drawings[if named { answer.wild.row.into() } else { ROWS }] += 1;
        }
        if let (Call::ListLines, 0) = (call, answer.refusal) {
            self.lists[usize::from(scrolled(list))] += 1;
        }
        if let Call::Explain { .. } = call {
            self.explained[usize::from(answer.explained.answer)] += 1;
        }
    }

    fn add(&mut self, other: &Self) {
        let calls = self.calls.iter_mut().zip(other.calls);
        calls.for_each(|(sum, calls)| *sum += calls);
        let refusals = self.refusals.iter_mut().zip(other.refusals);
        refusals.for_each(|(sum, refused)| *sum += refused);
        let z80 = self.z80.iter_mut().zip(other.z80);
        z80.for_each(|(sum, calls)| *sum += calls);
        let drawings = self.drawings.iter_mut().zip(other.drawings);
        drawings.for_each(|(sum, drawn)| *sum += drawn);
        let lists = self.lists.iter_mut().zip(other.lists);
        lists.for_each(|(sum, listed)| *sum += listed);
        let explained = self.explained.iter_mut().zip(other.explained);
        explained.for_each(|(sum, answers)| *sum += answers);
        self.promises.add(&other.promises);
        self.told.add(&other.told);
        self.indexed.add(&other.indexed);
        self.watched.add(&other.watched);
    }
}

/// Whether a list differs from that of the rows at rest.
fn scrolled(list: &[u8]) -> bool {
    let lines = list.chunks(2).zip(0..);
    let mut at_rest =
        lines.map(|(entry, line)| entry == [line / SCANS as u8, line % SCANS as u8 + 1]);
    !at_rest.all(|same| same)
}

/// One run: the calls made so far in a world.
struct Run<'a> {
    world: World,
    sides: Sides,
    steps: Vec<Step>,
    tried: Tried,
    tally: &'a mut Tally,
}

impl<'a> Run<'a> {
    fn new(chance: &mut Chance, tried: Tried, tally: &'a mut Tally) -> Self {
        Self::in_world(World::any(chance), tried, tally)
    }

    fn in_world(world: World, tried: Tried, tally: &'a mut Tally) -> Self {
        Self {
            world,
            sides: Sides::new(&world, tried),
            steps: Vec::new(),
            tried,
            tally,
        }
    }

    fn step(&mut self, step: Step) -> Result<(), Script> {
        self.steps.push(step);
        let answer = self.sides.step(&step).map_err(|_| self.script())?;
        let list = &self.sides.model.list;
        self.tally.count(&step.call, &answer, list);
        Ok(())
    }

    fn end(self) -> Result<(), Script> {
        self.sides.compare_all().map_err(|_| self.script())?;
        self.tally.watched.add(&self.sides.watched);
        self.tally.promises.add(&self.sides.promises);
        self.tally.told.add(&self.sides.copies.told);
        self.tally.indexed.add(&self.sides.indexed.counts);
        Ok(())
    }

    fn script(&self) -> Script {
        shrink::shrunk(self.world, &self.steps, self.tried)
            .expect("the same calls end in a difference again")
    }
}

/// As many run at once, each on buffers of its own, which the header allows.
const THREADS: u64 = 2;

/// Where fewer calls than these are asked for, there is less of the whole screen, of the watchdog, of the cells, of the
/// viewers and of the index too: these alone take some millions.
const WHOLE: u64 = 1_000_000;

/// The screens of which every cell is explained, at both settings, and of each thread at least.
const SCREENS: usize = 400;
const LEAST_SCREENS: usize = 4;

/// The long runs in which viewers ask, and of each thread at least.
const VIEWER_RUNS: usize = 400;
const LEAST_VIEWER_RUNS: usize = 4;

/// The long runs in which an index is kept, and of each thread at least.
const INDEX_RUNS: usize = 100;
const LEAST_INDEX_RUNS: usize = 4;

/// The ticks of each long run of the watchdog.
const RUN_TICKS: u64 = 250_000;

/// Makes the calls of the sweeps and those of the watchdog, then calls by chance, then explains every cell of many
/// screens, and then makes the long runs in which viewers ask and those in which an index is kept, and stores into
/// every place of some screens. Of the first sweep and by chance there are so many.
pub fn load(calls: u64, seed: u64, tried: Tried) -> Result<Tally, Script> {
    let mut chance = Chance(seed);
    let mut tally = sweep_all(sweep::pieces(), &mut chance, tried)?;
    let each = calls.saturating_sub(tally.total()) / THREADS;
    let every = (WHOLE / calls.clamp(1, WHOLE)) as usize;
    let lists = list_sweep::pieces(every);
    tally.add(&sweep_all(lists, &mut chance, tried)?);
    tally.add(&watchdog(every, &mut chance, tried)?);
    let threads: Vec<_> = (1..=THREADS)
        .map(|thread| {
            let seed = seed.rotate_left(16 * thread as u32);
            spawn(move || {
                let chance = &mut Chance(seed);
                let mut tally = by_chance(each, chance, tried)?;
                let screens = (SCREENS / THREADS as usize / every).max(LEAST_SCREENS);
                tally.add(&why_sweep::screens(screens, chance, tried)?);
                let runs = (VIEWER_RUNS / THREADS as usize / every).max(LEAST_VIEWER_RUNS);
                tally.add(&viewer_sweep::runs(runs, chance, tried)?);
                let runs = (INDEX_RUNS / THREADS as usize / every).max(LEAST_INDEX_RUNS);
                tally.add(&index_sweep::runs(runs, chance, tried)?);
                tally.add(&index_sweep::screens(every, chance, tried)?);
                Ok(tally)
            })
        })
        .collect();
    for thread in threads {
        let more: Result<Tally, Script> = thread.join().expect("a thread that ends");
        tally.add(&more?);
    }
    Ok(tally)
}

/// The sweep of the watchdog, and a long run in each manner from power-up.
fn watchdog(every: usize, chance: &mut Chance, tried: Tried) -> Result<Tally, Script> {
    let mut tally = sweep_all(watch_sweep::pieces(every), chance, tried)?;
    for manner in MANNERS {
        let mut run = Run::new(chance, tried, &mut tally);
        run.step(Call::SetMachine(Machine::power_up()).into())?;
        while run.sides.watched.ticks < RUN_TICKS / every as u64 {
            let step = watch_runs::step(chance, &run.sides.model, manner);
            run.step(step)?;
        }
        run.end()?;
    }
    Ok(tally)
}

fn sweep_all(pieces: Vec<Vec<Step>>, chance: &mut Chance, tried: Tried) -> Result<Tally, Script> {
    let mut tally = Tally::default();
    for steps in pieces {
        let mut run = Run::new(chance, tried, &mut tally);
        steps.into_iter().try_for_each(|step| run.step(step))?;
        run.end()?;
    }
    Ok(tally)
}

fn by_chance(calls: u64, chance: &mut Chance, tried: Tried) -> Result<Tally, Script> {
    let mut tally = Tally::default();
    while tally.total() < calls {
        let mut run = Run::new(chance, tried, &mut tally);
        let way = choose::way(chance);
        for _ in 0..100 + chance.below(300) {
            let step = choose::step(chance, &run.sides, way);
            run.step(step)?;
        }
        run.step(Call::DrawAfresh.into())?;
        run.end()?;
    }
    Ok(tally)
}
