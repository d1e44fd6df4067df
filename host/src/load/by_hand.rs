//! What a caller may do by hand: a machine and viewers of any values, any bytes in the picture and in the index.
use super::call::{Buffer, Call};
use super::model::Model;
use super::world;
use crate::chain::{self, PICTURE};
use crate::hard::Chance;
use crate::index::{self, INDEX};

/// A change by hand: of the machine, or one that makes the picture or the index untrue.
pub fn any(chance: &mut Chance) -> Call {
    let seed = chance.below(1 << 40) as u64 | 1;
    match chance.below(15) {
        10.. => untrue_index(chance),
        0 => Call::StrewPicture { seed },
        1 => Call::OtherPicture { seed },
        2 | 3 => Call::SetMachine(world::machine(chance)),
        4 | 5 => Call::SetViewers(world::viewers(chance)),
        _ => Call::AlterPicture {
            place: chance.below(PICTURE),
            byte: chance.byte(),
        },
    }
}

/// An index by hand: any bytes, rows and numbers beside them, one byte throughout, that of other memories, or one entry
/// that is another.
pub fn untrue_index(chance: &mut Chance) -> Call {
    let seed = chance.below(1 << 40) as u64 | 1;
    match chance.below(8) {
        0 => Call::StrewIndex { seed, under: 256 },
        1 | 2 => Call::StrewIndex { seed, under: 30 },
        3 | 4 => Call::FillIndex {
            byte: chance.of(&[0, 1, 23, 24, 25, 254, 255]),
        },
        5 => Call::OtherIndex { seed },
        _ => Call::AlterIndex {
            entry: chance.below(INDEX),
            byte: chance.of(&[0, 1, 12, 23, 24, 25, 26, 254, 255]),
        },
    }
}

/// Makes a change of picture or index on the model's side, and gives the buffer that it is of.
pub fn change(call: &Call, model: &mut Model) -> Buffer {
    match *call {
        Call::AlterPicture { place, byte } => model.picture[place] = byte,
        Call::StrewPicture { seed } => strew(&mut model.picture, seed, 256),
        Call::OtherPicture { seed } => {
            let (screen, attribute, columns) = other_memories(model, seed);
            let drawn = chain::draw(&screen, &attribute, columns);
            model.picture = drawn.expect("the right lengths").picture;
        }
        Call::AlterIndex { entry, byte } => model.index[entry] = byte,
        Call::FillIndex { byte } => model.index.fill(byte),
        Call::StrewIndex { seed, under } => strew(&mut model.index, seed, under),
        Call::OtherIndex { seed } => {
            let (screen, attribute, columns) = other_memories(model, seed);
            let index = index::index(&screen, &attribute, columns);
            model.index = index.expect("the right lengths");
        }
        _ => unreachable!("no change of picture or index by hand: {call:?}"),
    }
    match call {
        Call::AlterPicture { .. } | Call::StrewPicture { .. } | Call::OtherPicture { .. } => {
            Buffer::Picture
        }
        _ => Buffer::Index,
    }
}

fn strew(bytes: &mut [u8], seed: u64, under: usize) {
    let mut chance = Chance(seed);
    let bytes = bytes.iter_mut();
    bytes.for_each(|byte| *byte = chance.below(under) as u8);
}

/// Memories that are not those of the model, and its column setting.
fn other_memories(model: &Model, seed: u64) -> (Vec<u8>, Vec<u8>, usize) {
    let columns = model.machine.columns.into();
    let (screen, attribute) = world::any_memories(&mut Chance(seed), columns);
    (screen, attribute, columns)
}
