//! The index of first readers swept: entries of every sort, long runs in which picture and index are kept, and a store
//! into every place of screens that are hard to walk, with a true index and with untrue ones.
use super::aim::{self, EDGES, SCREEN};
use super::by_hand::untrue_index;
use super::call::Call;
use super::choose::{port, wrongly_lent};
use super::world::{Kind, World};
use super::{Run, Script, Tally, Tried};
use crate::hard::Chance;
use crate::index::INDEX;
use crate::machine::Machine;
use crate::viewers::VIEWERS;

/// The steps of a long run in which picture and index are kept, and of the short ones in which they are untrue, of
/// which there are so many for each long one.
const STEPS: usize = 900;
const UNTRUE_STEPS: usize = 90;
const UNTRUE_RUNS: usize = 10;

/// Entries that are rows, and that are none.
const ENTRIES: [u8; 8] = [0, 1, 23, 24, 25, 26, 254, 255];

/// The stores of a place are made in a run of so many places, so that a difference is shrunk soon.
const PIECE: usize = 64;

/// Every sort of entry at the places where one memory ends and the next begins, with an index that has it throughout,
/// that is true but for it, and that has rows of all sorts; at both settings.
pub fn entries() -> Vec<Call> {
    let mut calls = Vec::new();
    for code in [0x00, 0x10] {
        calls.push(Call::WritePort { port: 0x04, code });
        calls.extend([Call::DrawForViewers, Call::SetViewers([0; VIEWERS])]);
        calls.extend([Call::IndexReaders, Call::IndexAfresh]);
        for (seed, address) in (1..).zip(EDGES) {
            let entry = address.wrapping_sub(SCREEN) as usize % INDEX;
            let strewn = Call::StrewIndex { seed, under: 30 };
            for byte in ENTRIES {
                let mixed = [strewn, Call::AlterIndex { entry, byte }];
                let alone = [Call::IndexReaders, Call::AlterIndex { entry, byte }];
                for by_hand in [&[Call::FillIndex { byte }][..], &alone, &mixed] {
                    calls.extend(by_hand);
                    calls.push(Call::StoreWithIndex { address, byte });
                    calls.push(Call::StoreWithIndexForViewers {
                        address,
                        byte: 0x41,
                    });
                }
            }
        }
    }
    calls
}

/// So many long runs, as demand 3 has them where an index is lent, and after each some short ones in which pictures and
/// indexes are of any bytes: three of four are on screens of host/src/hard.rs.
pub fn runs(many: usize, chance: &mut Chance, tried: Tried) -> Result<Tally, Script> {
    let mut tally = Tally::default();
    for run in 0..many {
        let world = |chance: &mut Chance| match run % 4 {
            0 => World::any(chance),
            _ => World::of(chance, Kind::Hard),
        };
        let kept = Run::in_world(world(chance), tried, &mut tally);
        kept_run(kept, chance)?;
        for _ in 0..UNTRUE_RUNS {
            let untrue = Run::in_world(world(chance), tried, &mut tally);
            untrue_run(untrue, chance)?;
        }
    }
    Ok(tally)
}

/// A machine at power-up but for its columns.
fn at_columns(columns: u16) -> Call {
    Call::SetMachine(Machine {
        columns,
        ..Machine::power_up()
    })
}

/// Picture and index are drawn, kept, and compared with fresh ones after each turn.
fn kept_run(mut run: Run, chance: &mut Chance) -> Result<(), Script> {
    run.step(at_columns(80).into())?;
    for call in [Call::StartViewers, Call::DrawForViewers, Call::IndexReaders] {
        run.step(call.into())?;
    }
    while run.steps.len() < STEPS {
        turn(&mut run, chance)?;
        run.step(Call::IndexAfresh.into())?;
        run.step(Call::DrawAfresh.into())?;
    }
    run.end()
}

/// Again and again a picture and an index by hand, and some stores. The run is short, since such stores soon leave a
/// screen dark.
fn untrue_run(mut run: Run, chance: &mut Chance) -> Result<(), Script> {
    run.step(at_columns(chance.of(&[80, 132])).into())?;
    while run.steps.len() < UNTRUE_STEPS {
        let seed = chance.below(1 << 40) as u64 | 1;
        let picture = [
            Call::StrewPicture { seed },
            Call::OtherPicture { seed },
            Call::Draw,
        ];
        run.step(Call::Draw.into())?;
        let aimed: Vec<Call> = (0..1 + chance.below(6))
            .map(|_| store(&run, chance))
            .collect();
        run.step(chance.of(&picture).into())?;
        run.step(Call::IndexReaders.into())?;
        run.step(untrue_index(chance).into())?;
        aimed
            .into_iter()
            .try_for_each(|call| run.step(call.into()))?;
    }
    run.end()
}

/// A store with picture and index, for viewers or not.
fn store(run: &Run, chance: &mut Chance) -> Call {
    let (address, byte) = aim::store_with_index(chance, &run.sides.model);
    chance.of(&[
        Call::StoreWithIndex { address, byte },
        Call::StoreWithIndexForViewers { address, byte },
    ])
}

/// Stores, Z80 stores, port writes and ticks, refused ones among them. Picture and index are made afresh at once after
/// each change of the column setting.
fn turn(run: &mut Run, chance: &mut Chance) -> Result<(), Script> {
    let call = match chance.below(40) {
        0..=25 => store(run, chance),
        26..=28 => Call::StoreZ80 {
            address: aim::z80(chance),
            byte: chance.byte(),
        },
        29..=31 => Call::WritePort {
            port: 0x04,
            code: chance.of(&[0x00, 0x10, 0x10, 0x00, 0x20]),
        },
        32 | 33 => port(chance),
        34 => Call::VerticalTick,
        35 => Call::WatchdogTick {
            times: 1 + chance.below(40) as u32,
        },
        36 => Call::IndexReaders,
        37 => {
            let call = chance.of(&[Call::IndexReaders, Call::DrawForViewers]);
            return run.step(wrongly_lent(chance, call));
        }
        38 => {
            let call = store(run, chance);
            return run.step(wrongly_lent(chance, call));
        }
        _ => return in_reset(run, chance),
    };
    run.step(call.into())?;
    if !run.sides.kept {
        run.step(Call::DrawForViewers.into())?;
    }
    if !run.sides.indexed.kept {
        run.step(Call::IndexReaders.into())?;
    }
    Ok(())
}

/// A store in reset, which is refused, and an index, which is not; then the reset ends.
fn in_reset(run: &mut Run, chance: &mut Chance) -> Result<(), Script> {
    let enabled = Call::WritePort {
        port: 0x0C,
        code: 9,
    };
    run.step(enabled.into())?;
    run.step(Call::WatchdogTick { times: 128 }.into())?;
    let call = store(run, chance);
    run.step(call.into())?;
    run.step(Call::IndexAfresh.into())?;
    run.step(Call::WatchdogTick { times: 128 }.into())?;
    let port = 0x10C;
    run.step(Call::WritePort { port, code: 0 }.into())
}

/// The untrue indexes that are tried at every place of a screen, each at both settings.
fn untrue(seed: u64) -> [Call; 6] {
    [
        Call::StrewIndex { seed, under: 256 },
        Call::StrewIndex { seed, under: 30 },
        Call::FillIndex { byte: 0 },
        Call::FillIndex { byte: 24 },
        Call::FillIndex { byte: 25 },
        Call::OtherIndex { seed },
    ]
}

/// Of some hard screens, every place, or one in `every` of them: a store with a true index, and one with an untrue one.
pub fn screens(every: usize, chance: &mut Chance, tried: Tried) -> Result<Tally, Script> {
    let mut tally = Tally::default();
    for kind in 0..untrue(1).len() {
        let world = World::of(chance, Kind::Hard);
        for columns in [80, 132] {
            let first = chance.below(every);
            let entries: Vec<usize> = (first..INDEX).step_by(every).collect();
            for piece in entries.chunks(PIECE) {
                let mut run = Run::in_world(world, tried, &mut tally);
                run.step(at_columns(columns).into())?;
                stores(&mut run, chance, piece, kind)?;
                run.end()?;
            }
        }
    }
    Ok(tally)
}

/// A byte is stored at each place, and then the one that was there: with a true index, and then with an untrue one and
/// a picture of any bytes.
fn stores(run: &mut Run, chance: &mut Chance, piece: &[usize], kind: usize) -> Result<(), Script> {
    run.step(Call::Draw.into())?;
    run.step(Call::IndexReaders.into())?;
    let places = piece.iter().map(|entry| SCREEN + *entry as u32);
    for address in places.clone() {
        for byte in bytes(run, chance, address) {
            run.step(Call::StoreWithIndex { address, byte }.into())?;
        }
    }
    for address in places {
        let seed = chance.below(1 << 40) as u64 | 1;
        let [byte, old] = bytes(run, chance, address);
        run.step(Call::StrewPicture { seed }.into())?;
        run.step(untrue(seed)[kind].into())?;
        run.step(Call::StoreWithIndexForViewers { address, byte }.into())?;
        run.step(Call::StoreWithIndex { address, byte: old }.into())?;
    }
    Ok(())
}

/// A byte to store at an address, and the one that is there.
fn bytes(run: &Run, chance: &mut Chance, address: u32) -> [u8; 2] {
    let model = &run.sides.model;
    let place = (address & 0xFFF) as usize;
    let memory = if address >> 12 == 0xEE {
        &model.view.screen
    } else {
        &model.view.attribute
    };
    [aim::byte_for(chance, model, address), memory[place]]
}
