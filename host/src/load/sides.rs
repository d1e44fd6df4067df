//! The library and the model side by side, given the same calls, and a second library beside the first.
use super::by_hand;
use super::call::{Buffer, Call, Step, BUFFERS};
use super::copies::{Copies, Quiet};
use super::demands::{demands, Before};
use super::desk::{Asked, Promise, Promises};
use super::fault::Fault;
use super::indexed::Indexed;
use super::library::Library;
use super::model::Model;
use super::seen::mirrored;
use super::watch_runs::Watched;
use super::words::answered;
use super::world::World;
use crate::chain::{self, PICTURE};
use crate::history::History;
use crate::machine::Machine;
use crate::rainbow::{self, Seen};
use crate::viewers::Viewers;
use crate::why::Walk;

/// What is tried: a library beside the model, and a second library beside the first if there is one.
#[derive(Clone, Copy)]
pub struct Tried {
    pub library: &'static rainbow::Library,
    pub second: Option<&'static rainbow::Library>,
    pub fault: Fault,
}

#[derive(Clone)]
pub struct Sides {
    pub model: Model,
    pub library: Library,
    second: Option<Library>,
    /// The picture has been drawn, and nothing has been done since that demand 3's runs do not hold.
    pub kept: bool,
    pub indexed: Indexed,
    /// What the watchdog must do by the ticks made; there is none after a machine that no run of calls makes.
    history: Option<History>,
    pub watched: Watched,
    /// The call made last explained a cell.
    pub asked: Option<Asked>,
    /// The call made last stored into the place of a cell that was explained just before.
    promise: Option<Promise>,
    pub promises: Promises,
    /// The picture as each viewer has it.
    pub copies: Copies,
    quiet: Option<Quiet>,
    fault: Fault,
    before: Vec<u8>,
}

/// What differed.
pub type Differs = String;

const NAMES: [&str; 2] = ["model", "library"];
const LIBRARIES: [&str; 2] = ["library", "second library"];

fn same(differs: Option<Differs>) -> Result<(), Differs> {
    differs.map_or(Ok(()), Err)
}

impl Sides {
    pub fn new(world: &World, tried: Tried) -> Self {
        let model = world.model();
        let library = Library::new(&model, tried.library);
        Self {
            copies: Copies::new(),
            quiet: world
                .quiet
                .map(|viewer| Quiet::new(viewer, library.clone())),
            library,
            second: tried.second.map(|second| Library::new(&model, second)),
            history: History::of(&model.machine),
            model,
            kept: false,
            indexed: Indexed::default(),
            watched: Watched::default(),
            asked: None,
            promise: None,
            promises: Promises::default(),
            fault: tried.fault,
            before: vec![0; PICTURE],
        }
    }

    /// Makes a call on all sides, as often as the step says, and compares each time all that it may have changed.
    pub fn step(&mut self, step: &Step) -> Result<Seen, Differs> {
        if step.call.function().is_none() {
            self.by_hand(&step.call);
            return Ok(Seen::default());
        }
        for _ in 1..step.call.times() {
            self.once(step)?;
        }
        self.once(step)
    }

    fn once(&mut self, step: &Step) -> Result<Seen, Differs> {
        let columns = self.model.machine.columns;
        if step.call.mends() {
            let picture = self.library.content(Buffer::Picture);
            self.before.copy_from_slice(picture);
        }
        let promise = self.promise_of(step);
        let reset = self.library.machine.reset;
        let (by_index, true_index) = (self.indexed.before(step, &self.library)?, self.indexed.kept);
        let mut model = self.model.call(step, self.fault);
        let mut library = self.library.call(step)?;
        self.put_fault(&step.call, [&mut model, &mut library]);
        same(library.difference(&model, answered(&step.call), NAMES))?;
        for buffer in step.call.buffers() {
            self.compare(*buffer, !step.whole())?;
        }
        if self.library.machine != mirrored(&self.model.machine) {
            return Err("the machine".to_string());
        }
        self.beside(step, &library)?;
        let before = Before {
            picture: &self.before,
            kept: self.kept,
        };
        demands(&self.library, before, &step.call, &library)?;
        let moved = self.model.machine.columns != columns;
        self.indexed.after(
            step,
            &library,
            &self.library,
            by_index,
            moved && self.fault.sees_moves(),
        )?;
        self.for_viewers(step, &library)?;
        self.by_ticks(step, &library)?;
        self.keeps_promise(&step.call, &library)?;
        self.asked = Asked::of(&step.call, &library);
        self.promise = promise.filter(|_| library.refusal == 0);
        if let Call::WatchdogTick { .. } = step.call {
            self.watched.count(reset, self.library.machine.reset);
        }
        let accepted = library.refusal == 0;
        self.kept = match step.call {
            Call::Draw | Call::DrawForViewers if accepted => true,
            Call::Store8088 { .. } if accepted => false,
            // It may have taken f from an untrue index.
            _ if accepted && step.call.stores_with_index().is_some() => self.kept && true_index,
            _ => self.kept && !moved,
        };
        Ok(library)
    }

    fn put_fault(&mut self, call: &Call, mut answers: [&mut Seen; 2]) {
        let (library, model) = (&mut self.library, &mut self.model);
        self.fault.after(call, library, model);
        self.fault.of_index(call, &mut answers, library, model);
        if call.has_viewers() {
            let seen = &answers[1];
            self.fault.of_viewers(call, seen, &mut self.library.viewers);
            self.fault.of_model(call, seen, &mut self.model);
        }
        for seen in answers {
            self.fault.answered(call, seen);
        }
    }

    /// Makes the call of the second library and compares it with the first.
    fn beside(&mut self, step: &Step, first: &Seen) -> Result<(), Differs> {
        let second = match &mut self.second {
            Some(second) => second,
            None => return Ok(()),
        };
        let mut seen = second.call(step)?;
        self.fault.of_second(&step.call, &mut seen);
        same(seen.difference(first, answered(&step.call), LIBRARIES))?;
        for buffer in step.call.buffers() {
            let bytes = self.library.content(*buffer);
            same(second.differs(*buffer, bytes, !step.whole(), LIBRARIES))?;
        }
        if second.machine != self.library.machine {
            return Err("the machine of the second library".to_string());
        }
        if second.viewers != self.library.viewers {
            return Err("the viewers of the second library".to_string());
        }
        Ok(())
    }

    /// What waits for each viewer, what one that asked makes of its copy of the picture, and what it is handed where no
    /// other viewer asks.
    fn for_viewers(&mut self, step: &Step, seen: &Seen) -> Result<(), Differs> {
        let waiting = self.library.viewers;
        if step.call.has_viewers() && waiting != self.model.viewers.numbers() {
            let model = self.model.viewers.numbers();
            return Err(format!(
                "the viewers:\n  model {model:X?}\n  library {waiting:X?}"
            ));
        }
        if let (Call::Ask { viewer }, 0) = (step.call, seen.refusal) {
            let (view, columns) = (&self.model.view, self.model.machine.columns.into());
            let drawn = || chain::draw(&view.screen, &view.attribute, columns);
            let fresh = || {
                self.kept
                    .then(|| drawn().expect("the right lengths").picture)
            };
            let picture = self.library.content(Buffer::Picture);
            self.copies.asked(viewer, seen.value, picture, fresh)?;
        }
        self.copies.after(&step.call, seen);
        match &mut self.quiet {
            Some(quiet) => {
                let told = &mut self.copies.told;
                quiet.beside(step, self.fault, seen, &self.library, told)
            }
            None => Ok(()),
        }
    }

    fn compare(&self, buffer: Buffer, far: bool) -> Result<(), Differs> {
        let model = self.model.bytes(buffer);
        same(self.library.differs(buffer, model, far, NAMES))
    }

    /// Every byte on all sides.
    pub fn compare_all(&self) -> Result<(), Differs> {
        for buffer in BUFFERS {
            self.compare(buffer, true)?;
            if let Some(second) = &self.second {
                let bytes = self.library.content(buffer);
                same(second.differs(buffer, bytes, true, LIBRARIES))?;
            }
        }
        match &self.quiet {
            Some(quiet) => quiet.same_memories(&self.library),
            None => Ok(()),
        }
    }

    /// What document 02 says of the watchdog over a run, by the ticks made and by what was accepted, whatever the model
    /// says.
    fn by_ticks(&mut self, step: &Step, seen: &Seen) -> Result<(), Differs> {
        let history = match &mut self.history {
            Some(history) => history,
            None => return Ok(()),
        };
        let refused = history.in_reset() && step.call.by_8088() && step.whole();
        if refused != (seen.refusal == 8) {
            let (number, not) = (seen.refusal, if refused { "" } else { " not" });
            return Err(format!(
                "the refusal is {number}, but by the ticks made it is{not} 8"
            ));
        }
        match step.call {
            Call::WatchdogTick { .. } => history.tick(),
            Call::WritePort { port, code } if seen.refusal == 0 => history.written(port, code),
            _ => {}
        }
        let (count, reset) = (history.count(), u8::from(history.in_reset()));
        let machine = self.library.machine;
        if (machine.count, machine.reset) != (count, reset) {
            let wanted = format!("by the ticks made they are {count:X} and {reset}");
            let [count, reset] = [machine.count, machine.reset];
            return Err(format!(
                "count and reset are {count:X} and {reset}, but {wanted}"
            ));
        }
        Ok(())
    }

    /// The desk's promise, if the step is a store that makes one: the picture is a fresh one now.
    fn promise_of(&self, step: &Step) -> Option<Promise> {
        let stores = matches!(step.call, Call::StoreWithPicture { .. }) && step.whole();
        let asked = self.asked.filter(|_| stores && self.kept)?;
        let [screen, attribute, picture] = [Buffer::Screen, Buffer::Attribute, Buffer::Picture]
            .map(|buffer| self.library.content(buffer));
        let columns = self.model.machine.columns.into();
        let walk = Walk::of(screen, attribute, columns).ok()?;
        Promise::of(asked, &step.call, &walk, picture)
    }

    /// The next call is to be a drawing into the second picture, by which it is seen whether the promise was kept.
    pub fn has_promise(&self) -> bool {
        self.promise.is_some()
    }

    fn keeps_promise(&mut self, call: &Call, seen: &Seen) -> Result<(), Differs> {
        match (self.promise.take(), call, seen.refusal) {
            (Some(promise), Call::DrawAfresh, 0) => {
                let fresh = self.library.content(Buffer::Spare);
                promise.is_kept(fresh, &mut self.promises)
            }
            _ => Ok(()),
        }
    }

    fn by_hand(&mut self, call: &Call) {
        (self.asked, self.promise) = (None, None);
        if let Call::SetMachine(machine) = call {
            return self.set_machine(machine);
        }
        if let Call::SetViewers(viewers) = *call {
            self.copies.left_behind();
            self.model.viewers = Viewers::given(viewers);
            self.libraries()
                .for_each(|library| library.viewers = viewers);
            return;
        }
        let buffer = by_hand::change(call, &mut self.model);
        if buffer == Buffer::Index {
            self.indexed.kept = false;
        } else {
            self.copies.left_behind();
            self.kept = false;
        }
        let changed = self.model.bytes(buffer).to_vec();
        for library in self.libraries() {
            let bytes = library.buffers[buffer as usize].content_mut();
            bytes.copy_from_slice(&changed);
        }
    }

    /// The libraries of all sides.
    fn libraries(&mut self) -> impl Iterator<Item = &mut Library> {
        let quiet = self.quiet.as_mut().map(|quiet| &mut quiet.library);
        let all = [Some(&mut self.library), self.second.as_mut(), quiet];
        all.into_iter().flatten()
    }

    fn set_machine(&mut self, machine: &Machine) {
        (self.kept, self.indexed.kept) = (false, false);
        self.model.machine = *machine;
        self.history = History::of(machine);
        self.libraries()
            .for_each(|library| library.machine = mirrored(machine));
    }
}
