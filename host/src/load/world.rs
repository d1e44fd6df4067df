//! Memories and machines to begin with, made again from a seed.
use super::model::Model;
use crate::chain::{capacity, PICTURE, PLACES, ROWS};
use crate::dots::{GLYPHS, LINE};
use crate::hard::{self, Chance};
use crate::index::INDEX;
use crate::machine::Machine;
use crate::memories::{View8088, NVM, PRIVATE, SHADOW, SHARED};
use crate::rainbow::Waiting;
use crate::sample::herd_book;
use crate::screen::LIST;
use crate::viewers::{Viewers, VIEWERS};
use crate::why::Walk;

/// What the chain of a world is like.
#[derive(Clone, Copy, Debug, PartialEq, Eq)]
pub enum Kind {
    Blank,
    AllFF,
    ManyFF,
    Hard,
    Loops,
    Overlaps,
    Wraps,
    Wide,
    Torn,
    Laid,
    HerdBook,
}

const KINDS: [Kind; 12] = [
    Kind::AllFF,
    Kind::ManyFF,
    Kind::Hard,
    Kind::Hard,
    Kind::Loops,
    Kind::Overlaps,
    Kind::Wraps,
    Kind::Wide,
    Kind::Torn,
    Kind::Laid,
    Kind::Laid,
    Kind::HerdBook,
];

#[derive(Clone, Copy, Debug, PartialEq, Eq)]
pub struct World {
    pub seed: u64,
    pub kind: Kind,
    /// The viewer whose answers are compared with those that it has where no other viewer asks, if one is.
    pub quiet: Option<usize>,
}

/// Memories that rows are laid in, one after another. What a row has been laid on is not changed for a later one.
struct Layer<'a> {
    chance: &'a mut Chance,
    screen: &'a mut [u8],
    attribute: &'a mut [u8],
    laid: Vec<bool>,
    starts: Vec<usize>,
    free: usize,
    /// Cells are under this.
    under: usize,
}

impl Layer<'_> {
    fn cells(&mut self, kind: Kind, capacity: usize) -> usize {
        let (first, deep) = (self.starts.len() == 1, self.starts.len() > 8);
        match (kind, self.chance.below(8)) {
            (Kind::Wraps, 0..=3) if first => self.chance.below(3), // a link over the end may then be beside it
            (Kind::Torn, 0) if deep => capacity + 1,
            (Kind::Torn, _) => capacity,
            (_, 0) => 0,
            (_, 1 | 2) => self.chance.below(capacity),
            (_, 3) => capacity - 1,
            (_, 4) if deep => capacity + self.chance.below(2),
            _ => capacity,
        }
    }

    /// Where the row after one goes: now and then to what the kind is named for, else on.
    fn next(&mut self, kind: Kind, start: usize, cells: usize) -> usize {
        let next = match (kind, self.chance.below(12)) {
            (Kind::Loops, 0) => start,
            (Kind::Loops, 1) => self.chance.of(&self.starts),
            (Kind::Overlaps, 0) => start + self.chance.below(cells + 1),
            (Kind::Overlaps, 1 | 2) => start + cells + 1 + self.chance.below(2),
            (Kind::Wraps, 0 | 1) => PLACES - 1 - self.chance.below(4),
            (Kind::Wraps, 2 | 3) => PLACES - 1 - self.chance.below(140),
            _ => self.free.max(start + cells + 3),
        };
        next % PLACES
    }

    fn lay(&mut self, place: usize, byte: u8, beside: u8) {
        let place = place % PLACES;
        if !self.laid[place] {
            (self.screen[place], self.attribute[place]) = (byte, beside);
        }
        self.laid[place] = true;
    }

    /// Lays a row, and gives where the next one starts and its kind. There is none if the row runs into one that
    /// is there already, for the chain goes on from that.
    fn row(&mut self, kind: Kind, columns: usize, at: (usize, u8)) -> Option<(usize, u8)> {
        let (start, row_kind) = at;
        let capacity = capacity(columns, row_kind);
        self.starts.push(start);
        let mut cells = self.cells(kind, capacity);
        let to_end = PLACES - start;
        if kind == Kind::Wraps && to_end <= capacity {
            cells = to_end.saturating_sub(self.chance.below(4)); // most often the link is split over the end
        }
        let end = start + cells;
        let next = self.next(kind, start, cells);
        let next_kind = match kind {
            Kind::Wide => self.chance.of(&[0, 1, 2, 4, 5, 6]),
            Kind::Torn => self.chance.of(&[3, 7, 2]),
            _ => self.chance.below(8) as u8,
        };
        for place in start..end {
            let (cell, beside) = (self.chance.below(self.under) as u8, self.chance.byte());
            self.lay(place, cell, beside);
        }
        let any = self.chance.byte();
        self.lay(end, 0xFF, any);
        self.lay(end + 1, next as u8, next_kind | (any << 3));
        self.lay(end + 2, (next >> 8) as u8 | (any & 0xF0), any);
        if end + 3 < PLACES {
            self.free = self.free.max(end + 3);
        }
        self.after(start, cells, capacity)
    }

    /// What the link of the row at a start says, if the row ends where it was to end.
    fn after(&self, start: usize, cells: usize, capacity: usize) -> Option<(usize, u8)> {
        let byte = |place: usize| self.screen[place % PLACES];
        let cells_read = (0..=capacity).find(|cell| byte(start + cell) == 0xFF)?;
        let end = start + cells;
        let next = u16::from_le_bytes([byte(end + 1), byte(end + 2) & 0x0F]);
        let kind = self.attribute[(end + 1) % PLACES] & 7;
        (cells_read == cells).then_some((next.into(), kind))
    }
}

fn strewn(chance: &mut Chance, length: usize) -> Vec<u8> {
    (0..length).map(|_| chance.byte()).collect()
}

fn halves(bytes: &[u8]) -> (Vec<u8>, Vec<u8>) {
    (bytes[..PLACES].to_vec(), bytes[PLACES..].to_vec())
}

/// A screen memory and an attribute memory.
fn memories(chance: &mut Chance, kind: Kind, columns: usize) -> (Vec<u8>, Vec<u8>) {
    let (mut screen, attribute) = memories_of(chance, kind, columns);
    if kind != Kind::Blank {
        hard::choose_wild(chance, &mut screen, &attribute, columns);
    }
    (screen, attribute)
}

fn memories_of(chance: &mut Chance, kind: Kind, columns: usize) -> (Vec<u8>, Vec<u8>) {
    let mut attribute = strewn(chance, PLACES);
    match kind {
        Kind::Blank => return (vec![0; PLACES], vec![0; PLACES]),
        Kind::AllFF => return (vec![0xFF; PLACES], attribute),
        Kind::Hard => return halves(&hard::memories(chance)),
        Kind::HerdBook => return halves(&herd_book()),
        _ => {}
    }
    // Where bytes are under 16, an FF that is stored among them makes no link that is wild.
    let under = chance.of(&[16, 255]);
    let mut screen: Vec<u8> = (0..PLACES).map(|_| chance.below(under) as u8).collect();
    let every = match kind {
        Kind::ManyFF => 3,
        _ => chance.of(&[10, 25, 40, 80, 256]),
    };
    for byte in &mut screen {
        if chance.below(every) == 0 {
            *byte = 0xFF;
        }
    }
    if kind == Kind::ManyFF {
        return (screen, attribute);
    }
    let mut layer = Layer {
        chance,
        screen: &mut screen,
        attribute: &mut attribute,
        laid: vec![false; PLACES],
        starts: Vec::new(),
        free: 0,
        under,
    };
    (0..ROWS + 2).try_fold((0, 3), |at, _| layer.row(kind, columns, at));
    (screen, attribute)
}

/// Memories of any kind.
pub fn any_memories(chance: &mut Chance, columns: usize) -> (Vec<u8>, Vec<u8>) {
    let kind = chance.of(&KINDS);
    memories(chance, kind, columns)
}

/// A machine at power-up but for its columns, its display and its Z80, or one of any values.
pub fn machine(chance: &mut Chance) -> Machine {
    let columns = chance.of(&[80, 132]);
    match chance.below(4) {
        0 => Machine {
            columns,
            hertz: chance.of(&[50, 60]),
            interlace: chance.below(2) == 0,
            latch: chance.byte(),
            blink: chance.below(2) == 0,
            interrupt: chance.below(2) == 0,
            reverse: chance.below(2) == 0,
            watchdog: chance.below(2) == 0,
            count: match chance.below(4) {
                0 => chance.byte(),
                _ => chance.of(&[0, 1, 2, 125, 126, 127, 128, 255]),
            },
            reset: chance.below(4) == 0,
            held: chance.byte(),
        },
        1 => Machine::power_up(),
        _ => Machine {
            columns,
            held: chance.of(&[0x02, 0x03]),
            ..Machine::power_up()
        },
    }
}

/// Numbers that may wait for the viewers: those of the start, none, or any bits, also those that no row has.
pub fn viewers(chance: &mut Chance) -> Waiting {
    let numbers = [
        0,
        1,
        1 << (ROWS - 1),
        (1 << ROWS) - 1,
        1 << ROWS,
        1 << 31,
        u32::MAX,
    ];
    let mut any = || match chance.below(3) {
        0 => chance.below(1 << 32) as u32,
        1 => 1 << chance.below(32),
        _ => chance.of(&numbers),
    };
    let each = std::array::from_fn(|_| any());
    match chance.below(4) {
        0 => Viewers::start().numbers(),
        1 => [0; VIEWERS],
        _ => each,
    }
}

impl World {
    pub fn any(chance: &mut Chance) -> Self {
        let world = Self::of(chance, Kind::Hard);
        Self {
            kind: chance.of(&KINDS),
            ..world
        }
    }

    pub fn of(chance: &mut Chance, kind: Kind) -> Self {
        Self {
            seed: (chance.below(u32::MAX as usize) as u64) << 16 | 1,
            kind,
            quiet: None,
        }
    }

    /// All that the world begins with. A picture holds any bytes until it is drawn, and so does an index.
    pub fn model(&self) -> Model {
        let chance = &mut Chance(self.seed);
        let machine = machine(chance);
        let columns = machine.columns.into();
        let (screen, attribute) = memories(chance, self.kind, columns);
        Model {
            view: View8088 {
                shared: strewn(chance, SHARED),
                screen,
                attribute,
            },
            private: strewn(chance, PRIVATE),
            table: strewn(chance, GLYPHS),
            nvm: strewn(chance, NVM),
            shadow: strewn(chance, SHADOW),
            picture: strewn(chance, PICTURE),
            line: strewn(chance, LINE),
            list: strewn(chance, LIST),
            index: strewn(chance, INDEX),
            spare: strewn(chance, PICTURE),
            spare_index: strewn(chance, INDEX),
            viewers: Viewers::given(viewers(chance)),
            machine,
            walk: Walk::default(),
        }
    }
}
