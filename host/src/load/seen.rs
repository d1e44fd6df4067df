//! Two answers compared, and the model's answers and its machine as a library has them.
use crate::chain::Drawn;
use crate::machine::Machine;
use crate::rainbow::{self, Explained, Seen, Wild, CELL, DARK, FILL, PAST};
use crate::why::{Led, Why};
use crate::Answer;

impl Seen {
    /// The first part in which this answer differs from another. `sides` are the names of the other and of this one.
    pub fn difference(&self, other: &Self, number: &str, sides: [&str; 2]) -> Option<String> {
        let [that, this] = sides;
        let numbers = [
            ("refusal", self.refusal.into(), other.refusal.into()),
            (number, self.value, other.value),
            ("length", self.length, other.length),
            ("wild flag", self.wild.there.into(), other.wild.there.into()),
            ("wild row", self.wild.row.into(), other.wild.row.into()),
        ];
        let names = [
            "answer",
            "place",
            "kind",
            "row that tore",
            "link flag",
            "link",
        ];
        let explained = self.explained.numbers().into_iter();
        let explained = explained.zip(other.explained.numbers());
        let explained = names
            .into_iter()
            .zip(explained)
            .map(|(name, (a, b))| (name, a, b));
        let mut numbers = numbers.into_iter().chain(explained);
        let differs = numbers.find(|(_, a, b)| a != b);
        if let Some((name, mine, theirs)) = differs {
            return Some(format!(
                "the {name} answered: {that} {theirs:X}, {this} {mine:X}"
            ));
        }
        if self.viewers != other.viewers {
            let (theirs, mine) = (other.viewers, self.viewers);
            return Some(format!(
                "the viewers answered:\n  {that} {theirs:X?}\n  {this} {mine:X?}"
            ));
        }
        (self.machine != other.machine).then(|| {
            let (theirs, mine) = (other.machine, self.machine);
            format!("the machine answered:\n  {that} {theirs:X?}\n  {this} {mine:X?}")
        })
    }
}

impl Explained {
    fn numbers(&self) -> [u64; 6] {
        let (answer, place) = (self.answer.into(), self.place.into());
        let (kind, tore) = (self.kind.into(), self.tore.into());
        [
            answer,
            place,
            kind,
            tore,
            self.linked.into(),
            self.link.into(),
        ]
    }
}

/// The model's machine as the library has it.
pub fn mirrored(machine: &Machine) -> rainbow::Machine {
    rainbow::Machine {
        columns132: u8::from(machine.columns == 132),
        hertz50: u8::from(machine.hertz == 50),
        interlace: machine.interlace.into(),
        latch: machine.latch,
        blink: machine.blink.into(),
        interrupt: machine.interrupt.into(),
        reverse: machine.reverse.into(),
        watchdog: machine.watchdog.into(),
        count: machine.count,
        reset: machine.reset.into(),
        held: machine.held,
    }
}

/// An answer of the model as a library has it.
pub fn seen<T: TryInto<u64>>(answer: Answer<T>) -> Seen {
    match answer {
        Ok(value) => Seen::value(value),
        Err(number) => Seen::refusal(number),
    }
}

/// What a drawing answers: no row is named where no link is wild, nor where the call is refused.
pub fn seen_drawn(answer: Answer<Drawn>) -> Seen {
    let wild = answer.as_ref().map_or(None, |drawn| drawn.wild);
    Seen {
        wild: wild.map_or(Wild::default(), Wild::named),
        ..seen(answer.map(|drawn| drawn.reads))
    }
}

/// What is said of a cell, as numbers: what an answer does not have is 0.
pub fn seen_explained(answer: Answer<Why>) -> Seen {
    let why = match answer {
        Ok(why) => why,
        Err(number) => return Seen::refusal(number),
    };
    let none = Explained::default();
    let (led, explained) = match why {
        Why::Cell { place, kind, led } => {
            let (answer, place) = (CELL, place as u16);
            (
                led,
                Explained {
                    answer,
                    place,
                    kind,
                    ..none
                },
            )
        }
        Why::Fill { place, led } => {
            let (answer, place) = (FILL, place as u16);
            (
                led,
                Explained {
                    answer,
                    place,
                    ..none
                },
            )
        }
        Why::Past { led } => (
            led,
            Explained {
                answer: PAST,
                ..none
            },
        ),
        Why::Dark { tore } => {
            let (answer, tore) = (DARK, tore as u8);
            (
                Led::Row0,
                Explained {
                    answer,
                    tore,
                    ..none
                },
            )
        }
    };
    let (linked, link) = match led {
        Led::Row0 => (0, 0),
        Led::Link(place) => (1, place as u16),
    };
    Seen {
        explained: Explained {
            linked,
            link,
            ..explained
        },
        ..Seen::refusal(0)
    }
}
