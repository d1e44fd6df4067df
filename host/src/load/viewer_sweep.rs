//! The viewers swept: every viewer with numbers of every sort, and long runs on screens that are hard to walk, in which
//! each viewer has its own copy of the picture.
use super::aim;
use super::call::Call;
use super::choose::wrongly_lent;
use super::world::{Kind, World};
use super::{Run, Script, Tally, Tried};
use crate::chain::ROWS;
use crate::hard::Chance;
use crate::machine::Machine;
use crate::viewers::VIEWERS;

/// The steps of a long run.
const STEPS: usize = 600;

/// Viewers that are none.
const NONE: [usize; 6] = [8, 9, 255, 256, 1 << 32, usize::MAX];

/// Numbers with bits that rows have, and that no row has, each with each viewer; every one asks, and some that are none.
pub fn asks() -> Vec<Call> {
    let (last, rows) = (1 << (ROWS - 1), (1 << ROWS) - 1);
    let numbers = [0, 1, last, rows, last << 1, !rows, 0x8000_0000, u32::MAX];
    let mut calls = vec![Call::StartViewers];
    calls.extend((0..VIEWERS).map(|viewer| Call::Ask { viewer }));
    for turn in 0..numbers.len() {
        for asks in [
            (0..VIEWERS).collect::<Vec<_>>(),
            (0..VIEWERS).rev().collect(),
        ] {
            let each = std::array::from_fn(|viewer| numbers[(viewer + turn) % numbers.len()]);
            calls.push(Call::SetViewers(each));
            for viewer in asks {
                let none = NONE[viewer % NONE.len()];
                calls.push(Call::Ask { viewer: none });
                calls.push(Call::Ask { viewer });
            }
            calls.push(Call::DrawForViewers);
        }
    }
    calls
}

/// So many long runs: three of four are on screens of host/src/hard.rs. Each is made a second time beside itself, where
/// all viewers but one never ask.
pub fn runs(many: usize, chance: &mut Chance, tried: Tried) -> Result<Tally, Script> {
    let mut tally = Tally::default();
    for run in 0..many {
        let world = match run % 4 {
            0 => World::any(chance),
            _ => World::of(chance, Kind::Hard),
        };
        let world = World {
            quiet: Some(chance.below(VIEWERS)),
            ..world
        };
        let mut run = Run::in_world(world, tried, &mut tally);
        run.step(Call::SetMachine(Machine::power_up()).into())?;
        run.step(Call::StartViewers.into())?;
        run.step(Call::DrawForViewers.into())?;
        while run.steps.len() < STEPS {
            turn(&mut run, chance)?;
        }
        everyone_asks(&mut run, chance)?;
        run.end()?;
    }
    Ok(tally)
}

/// Stores, drawings, changes of columns, stores that the picture is not lent to, and asks, refused ones among them. A
/// picture that is left behind is drawn afresh for the viewers, but now and then one of them asks ahead of that.
fn turn(run: &mut Run, chance: &mut Chance) -> Result<(), Script> {
    match chance.below(40) {
        0..=19 => {
            let (address, byte) = aim::store(chance, &run.sides.model);
            run.step(Call::StoreForViewers { address, byte }.into())?;
        }
        20..=29 => run.step(ask(chance).into())?,
        30 => everyone_asks(run, chance)?,
        31 | 32 => {
            let (address, byte) = aim::store(chance, &run.sides.model);
            run.step(Call::Store8088 { address, byte }.into())?;
        }
        33 | 34 => {
            let code = chance.of(&[0x00, 0x10, 0x10, 0x00, 0x20]);
            run.step(Call::WritePort { port: 0x04, code }.into())?;
        }
        35 => run.step(Call::DrawForViewers.into())?,
        36 | 37 => {
            let (address, byte) = aim::store(chance, &run.sides.model);
            let call = chance.of(&[
                Call::DrawForViewers,
                Call::StoreForViewers { address, byte },
            ]);
            run.step(wrongly_lent(chance, call))?;
        }
        38 => in_reset(run, chance)?,
        _ => {
            let viewer = chance.of(&NONE);
            run.step(Call::Ask { viewer }.into())?;
        }
    }
    if !run.sides.kept {
        if chance.below(4) == 0 {
            run.step(ask(chance).into())?;
        }
        run.step(Call::DrawForViewers.into())?;
    }
    Ok(())
}

fn ask(chance: &mut Chance) -> Call {
    Call::Ask {
        viewer: chance.below(VIEWERS),
    }
}

/// All eight, in any order.
fn everyone_asks(run: &mut Run, chance: &mut Chance) -> Result<(), Script> {
    let mut left: Vec<usize> = (0..VIEWERS).collect();
    while !left.is_empty() {
        let viewer = left.swap_remove(chance.below(left.len()));
        run.step(Call::Ask { viewer }.into())?;
    }
    Ok(())
}

/// A store in reset, which is refused, and an ask, which is not.
fn in_reset(run: &mut Run, chance: &mut Chance) -> Result<(), Script> {
    let enabled = Call::WritePort {
        port: 0x0C,
        code: 9,
    };
    run.step(enabled.into())?;
    run.step(Call::WatchdogTick { times: 128 }.into())?;
    let (address, byte) = aim::store(chance, &run.sides.model);
    run.step(Call::StoreForViewers { address, byte }.into())?;
    run.step(ask(chance).into())?;
    run.step(Call::WatchdogTick { times: 128 }.into())?;
    let port = 0x10C;
    run.step(Call::WritePort { port, code: 0 }.into())
}
