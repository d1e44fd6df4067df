//! Addresses and bytes that matter: the bytes that rows read, those beside them, and the edges of the ranges.
use super::model::Model;
use crate::chain::{capacity, COUNT_AT, DARK, KIND_AT, PAIRS, PLACES, RECORD, ROWS, TORN};
use crate::hard::Chance;
use crate::index::INDEX;

pub const EDGES: [u32; 20] = [
    0x0, 0x1, 0x7FF, 0x800, 0xFFFE, 0xFFFF, 0x10000, 0x1FFFF, 0xEDFFF, 0xEE000, 0xEE001, 0xEEFFF,
    0xEF000, 0xEFFFF, 0xF0000, 0xFFFFF, 0x100000, 0x1EE000, 0xFFFEE000, 0xFFFFFFFF,
];

pub const SCREEN: u32 = 0xEE000;
const ATTRIBUTE: u32 = 0xEF000;

/// A row that the picture shows, as its start, its capacity, and its cells; torn if it has no FF.
struct Shown {
    start: usize,
    capacity: usize,
    cells: usize,
    torn: bool,
}

fn shown(model: &Model, row: usize) -> Shown {
    let record = &model.picture[row * RECORD..][..RECORD];
    let capacity = capacity(model.machine.columns.into(), record[KIND_AT]);
    let torn = record[COUNT_AT] == TORN;
    Shown {
        start: usize::from(u16::from_be_bytes([record[0], record[1]])),
        capacity,
        cells: if torn {
            capacity
        } else {
            record[COUNT_AT].into()
        },
        torn,
    }
}

/// How many rows there are ahead of the first dark one.
fn lit(model: &Model) -> usize {
    let counts = (0..ROWS).map(|row| model.picture[row * RECORD + COUNT_AT]);
    counts.take_while(|count| *count != DARK).count()
}

/// A place that a row reads, or the one after its link, and the memory that it is in.
fn of_a_row(chance: &mut Chance, row: &Shown) -> u32 {
    let cells = row.cells;
    let (memory, offset) = match chance.below(20) {
        0 => (SCREEN, cells),
        1 | 2 => (SCREEN, cells + 1),
        3 | 4 => (SCREEN, cells + 2),
        5..=7 => (ATTRIBUTE, cells + 1),
        8 => (SCREEN, cells + 3),
        9 => (ATTRIBUTE, cells + chance.of(&[0, 2, 3])),
        10..=13 => (ATTRIBUTE, chance.below(cells + 1)),
        14 => (SCREEN, row.capacity),
        _ => (SCREEN, chance.below(cells + 1)),
    };
    memory + ((row.start + offset) % PLACES) as u32
}

pub fn address(chance: &mut Chance, model: &Model) -> u32 {
    let lit = lit(model);
    match chance.below(20) {
        0 => chance.of(&EDGES),
        1 => chance.below(1 << 32) as u32,
        2 => chance.below(0x10000) as u32,
        4 => 0xED000 + chance.below(4 * PLACES) as u32,
        5.. if lit > 0 => {
            let row = chance.below(lit).max(chance.below(lit));
            of_a_row(chance, &shown(model, row))
        }
        _ => SCREEN + chance.below(2 * PLACES) as u32,
    }
}

/// An address and the byte to store there. A torn row is often given an FF again, for all rows after it are dark.
pub fn store(chance: &mut Chance, model: &Model) -> (u32, u8) {
    let last = lit(model).checked_sub(1).map(|row| shown(model, row));
    if let Some(Shown {
        start,
        capacity,
        torn: true,
        ..
    }) = last
    {
        if chance.below(3) == 0 {
            let place = (start + chance.below(capacity + 2)) % PLACES;
            return (SCREEN + place as u32, 0xFF);
        }
    }
    let address = address(chance, model);
    (address, byte_for(chance, model, address))
}

/// The same with an index: most often a byte of a row, but now and then by the index as it is, whose entry names a row,
/// or none, or stands beside the first of such.
pub fn store_with_index(chance: &mut Chance, model: &Model) -> (u32, u8) {
    if chance.below(3) > 0 {
        return store(chance, model);
    }
    let (from, named) = (chance.below(INDEX), chance.below(2) == 0);
    let mut entries = (0..INDEX).map(|further| (from + further) % INDEX);
    let names_a_row = |entry: usize| usize::from(model.index[entry]) < ROWS;
    let found = entries.find(|entry| names_a_row(*entry) == named);
    let beside = chance.of(&[0, 0, 1, 2, INDEX - 1]);
    let entry = (found.unwrap_or(from) + beside) % INDEX;
    let address = SCREEN + entry as u32;
    (address, byte_for(chance, model, address))
}

/// Where the index has the entry of the byte at an address. A byte of shared memory has none.
pub fn entry_at(address: u32) -> Option<usize> {
    let entry = address.checked_sub(SCREEN)? as usize;
    (entry < INDEX).then_some(entry)
}

/// A byte to store at an address: often the one that is there, or one that differs from it in few bits.
pub fn byte_for(chance: &mut Chance, model: &Model, address: u32) -> u8 {
    let place = (address & 0xFFF) as usize;
    let old = match address >> 12 {
        0xEE => model.view.screen[place],
        0xEF => model.view.attribute[place],
        _ => chance.byte(),
    };
    let byte = match chance.below(10) {
        0 => 0xFF,
        1 | 2 => old,
        3 => old ^ chance.byte() & 0xF0,
        4 => old.wrapping_add(1),
        5 => chance.below(16) as u8,
        _ => chance.byte(),
    };
    // The high byte of a link, as far as can be told here, is most often left tame, so that rows far down, or none, are
    // the first whose links are wild.
    let ends = model.view.screen[(place + PLACES - 2) % PLACES] == 0xFF;
    if address >> 12 == 0xEE && ends && byte != 0xFF && chance.below(4) > 0 {
        return byte & 0x0F;
    }
    byte
}

/// A row and a column: most often those of a cell that the picture shows, or beside the end of the row or its capacity,
/// now and then of a dark row.
pub fn cell(chance: &mut Chance, model: &Model) -> (usize, usize) {
    let lit = lit(model);
    let row = match chance.below(8) {
        0 => chance.below(ROWS),
        1 => lit,
        _ => chance.below(lit + 1).max(chance.below(lit + 1)),
    };
    let row = row.min(ROWS - 1);
    let Shown {
        capacity, cells, ..
    } = shown(model, row);
    let column = match chance.below(12) {
        0 => 0,
        1 => cells.saturating_sub(1),
        2 => cells,
        3 => cells + 1,
        4 => capacity - 1,
        5 => capacity,
        6 => capacity + 1,
        7 => chance.below(PAIRS),
        _ => chance.below(cells + 1),
    };
    (row, column)
}

/// The address of a place of screen memory, and a byte to store there: any that differs and is not FF.
pub fn other_byte(chance: &mut Chance, model: &Model, place: usize) -> (u32, u8) {
    let old = usize::from(model.view.screen[place]);
    (
        SCREEN + place as u32,
        ((old + 1 + chance.below(254)) % 255) as u8,
    )
}

pub fn z80(chance: &mut Chance) -> u16 {
    match chance.below(3) {
        0 => chance.of(&[0, 1, 0x7FE, 0x7FF, 0x800, 0x801, 0xFFFE, 0xFFFF]),
        1 => chance.below(0x1000) as u16,
        _ => chance.below(0x10000) as u16,
    }
}

const HUGE: [usize; 4] = [usize::MAX, usize::MAX / 2, 1 << 32, 1 << 63];

/// A number that is most often under `n`, sometimes beside it, seldom far from it.
pub fn about(chance: &mut Chance, n: usize) -> usize {
    match chance.below(16) {
        0 => n - chance.below(2),
        1 => chance.of(&HUGE),
        2 => n + chance.below(10),
        _ => chance.below(n),
    }
}
