//! Every cell of screens that are hard to walk, at both settings, asked why it shows what it shows; and for some of
//! them the desk's promise.
use super::aim;
use super::call::Call;
use super::world::{Kind, World};
use super::{Run, Script, Tally, Tried};
use crate::chain::{PAIRS, ROWS};
use crate::hard::Chance;
use crate::machine::Machine;

/// How often the promise is tried at each setting of a screen.
const TRIES: usize = 40;

/// So many screens: three of four are those of host/src/hard.rs.
pub fn screens(many: usize, chance: &mut Chance, tried: Tried) -> Result<Tally, Script> {
    let mut tally = Tally::default();
    for screen in 0..many {
        let world = match screen % 4 {
            0 => World::any(chance),
            _ => World::of(chance, Kind::Hard),
        };
        let mut run = Run::in_world(world, tried, &mut tally);
        for columns in [80, 132] {
            let machine = Machine {
                columns,
                ..Machine::power_up()
            };
            run.step(Call::SetMachine(machine).into())?;
            for row in 0..ROWS {
                for column in 0..PAIRS {
                    run.step(Call::Explain { row, column }.into())?;
                }
            }
            promises(&mut run, chance)?;
        }
        run.end()?;
    }
    Ok(tally)
}

/// A fresh picture, a cell that is explained, a store into the place that is named, and a fresh picture again; then the
/// byte is put back.
fn promises(run: &mut Run, chance: &mut Chance) -> Result<(), Script> {
    run.step(Call::Draw.into())?;
    for _ in 0..TRIES {
        let (row, column) = aim::cell(chance, &run.sides.model);
        run.step(Call::Explain { row, column }.into())?;
        let place = match run.sides.asked {
            Some(asked) => asked.place,
            None => continue,
        };
        let old = run.sides.model.view.screen[place];
        let (address, byte) = aim::other_byte(chance, &run.sides.model, place);
        run.step(Call::StoreWithPicture { address, byte }.into())?;
        run.step(Call::DrawAfresh.into())?;
        run.step(Call::StoreWithPicture { address, byte: old }.into())?;
    }
    Ok(())
}
