//! Chooses the next call, most often one that is hard to answer.
use super::aim::{self, about};
use super::by_hand;
use super::call::{Call, Lent, Step, WRONG_LENGTHS};
use super::model::Model;
use super::sides::Sides;
use super::watch_runs::{self, Manner, MANNERS};
use crate::chain::{PAIRS, ROWS};
use crate::dots::{SCANS, UNDERLINE_SCAN};
use crate::hard::Chance;
use crate::memories::SHADOW;
use crate::mending::MARK_BITS;
use crate::viewers::VIEWERS;

/// How the calls of a run are chosen.
#[derive(Clone, Copy, PartialEq, Eq)]
pub enum Way {
    /// The picture is never left behind.
    True,
    /// Nor is the index: the runs of demand 3 where an index is lent.
    Indexed,
    Any,
    /// Most are the Z80's, with writes to port 0A and what the 8088 does meanwhile.
    Z80,
    /// Most are ticks of the watchdog's clock and what matters to it.
    Watchdog(Manner),
}

pub fn way(chance: &mut Chance) -> Way {
    match chance.below(16) {
        0 | 1 => Way::Z80,
        2 => Way::Watchdog(chance.of(&MANNERS)),
        3..=6 => Way::True,
        7..=9 => Way::Indexed,
        _ => Way::Any,
    }
}

/// The kinds of calls, with how often they are chosen.
#[derive(Clone, Copy)]
enum Choice {
    Plain(Call),
    Ticks,
    Port,
    Read8088,
    Store8088,
    ReadZ80,
    StoreZ80,
    ReadShadow,
    WriteShadow,
    Stored,
    Marked,
    Part,
    Line,
    Explain,
    Ask,
    StoredForViewers,
    StoredWithIndex,
    StoredWithIndexForViewers,
}

const CHOICES: [(usize, Choice); 33] = [
    (120, Choice::Stored),
    (80, Choice::StoredForViewers),
    (120, Choice::StoredWithIndex),
    (80, Choice::StoredWithIndexForViewers),
    (30, Choice::Plain(Call::IndexReaders)),
    (30, Choice::Plain(Call::IndexAfresh)),
    (90, Choice::Ask),
    (120, Choice::Port),
    (60, Choice::Read8088),
    (60, Choice::Line),
    (60, Choice::Plain(Call::ListLines)),
    (100, Choice::Explain),
    (50, Choice::ReadZ80),
    (50, Choice::StoreZ80),
    (50, Choice::WriteShadow),
    (40, Choice::ReadShadow),
    (40, Choice::Marked),
    (40, Choice::Part),
    (60, Choice::Store8088),
    (30, Choice::Plain(Call::Draw)),
    (30, Choice::Plain(Call::DrawForViewers)),
    (10, Choice::Plain(Call::StartViewers)),
    (30, Choice::Plain(Call::DrawAfresh)),
    (28, Choice::Plain(Call::Version)),
    (28, Choice::Plain(Call::PowerUp)),
    (28, Choice::Plain(Call::VerticalTick)),
    (28, Choice::Ticks),
    (28, Choice::Plain(Call::Columns)),
    (28, Choice::Plain(Call::Z80Runs)),
    (28, Choice::Plain(Call::Blanked)),
    (28, Choice::Plain(Call::Graphics)),
    (28, Choice::Plain(Call::ScrollLatch)),
    (28, Choice::Plain(Call::DotsOfLine)),
];

fn choice(chance: &mut Chance) -> Choice {
    let total = CHOICES.iter().map(|(often, _)| often).sum();
    let mut left = chance.below(total);
    for (often, choice) in CHOICES {
        match left.checked_sub(often) {
            Some(rest) => left = rest,
            None => return choice,
        }
    }
    unreachable!("less than the total")
}

/// A write to a port: most often a port and a code of its list.
pub fn port(chance: &mut Chance) -> Call {
    let port = match chance.below(20) {
        0 => chance.below(0x10000) as u16,
        1 => chance.of(&[0x00, 0x03, 0x05, 0x0B, 0x0D, 0x104, 0x10A, 0x10B, 0x20C]),
        _ => chance.of(&[0x04, 0x0A, 0x0A, 0x0C, 0x10C]),
    };
    let code = match (port, chance.below(8)) {
        (_, 0) => chance.byte(),
        (0x04, _) => chance.of(&[0x00, 0x10, 0x20, 0x30]),
        (0x0A, 1..=6) => chance.byte() & !0b100 | 0b010,
        (0x0A, _) => chance.byte(),
        _ => chance.below(13) as u8,
    };
    Call::WritePort { port, code }
}

/// A call of the Z80, or one that decides what the next of them answers. Each byte is as likely a code of port 0A as
/// any other, so the Z80 is held about as often as it runs.
fn about_the_z80(chance: &mut Chance) -> Call {
    let (address, byte) = (aim::z80(chance), chance.byte());
    match chance.below(10) {
        0 => Call::WritePort {
            port: 0x0A,
            code: byte,
        },
        1 => Call::StoreWithPicture {
            address: address.into(),
            byte,
        },
        2 => Call::Read8088 {
            address: address.into(),
        },
        3 => Call::Z80Runs,
        4..=6 => Call::ReadZ80 { address },
        _ => Call::StoreZ80 { address, byte },
    }
}

/// Now and then a call is lent one or several buffers of other lengths.
fn lent(chance: &mut Chance, call: Call) -> Step {
    match chance.below(25) {
        0 => wrongly_lent(chance, call),
        _ => call.into(),
    }
}

/// A call that is lent one or several buffers of other lengths, if it is lent any.
pub fn wrongly_lent(chance: &mut Chance, call: Call) -> Step {
    let mut step = Step::from(call);
    let buffers = call.buffers();
    if buffers.is_empty() {
        return step;
    }
    let one = chance.of(buffers);
    step.lent.set(one, chance.of(&WRONG_LENGTHS));
    if chance.below(2) == 0 {
        for buffer in buffers {
            let either = [Lent::Whole, chance.of(&WRONG_LENGTHS)];
            step.lent.set(*buffer, chance.of(&either));
        }
    }
    step
}

/// Any call, as often as the list says.
pub fn any(chance: &mut Chance, model: &Model) -> Call {
    let choice = choice(chance);
    call(chance, model, choice)
}

/// A call of a kind, with its numbers.
fn call(chance: &mut Chance, model: &Model, choice: Choice) -> Call {
    match choice {
        Choice::Plain(call) => call,
        Choice::Ticks => watch_runs::ticks(chance, &model.machine),
        Choice::Port => port(chance),
        Choice::Read8088 => Call::Read8088 {
            address: aim::address(chance, model),
        },
        Choice::Store8088 => {
            let (address, byte) = aim::store(chance, model);
            Call::Store8088 { address, byte }
        }
        Choice::Stored => {
            let (address, byte) = aim::store(chance, model);
            Call::StoreWithPicture { address, byte }
        }
        Choice::StoredForViewers => {
            let (address, byte) = aim::store(chance, model);
            Call::StoreForViewers { address, byte }
        }
        Choice::StoredWithIndex => {
            let (address, byte) = aim::store_with_index(chance, model);
            Call::StoreWithIndex { address, byte }
        }
        Choice::StoredWithIndexForViewers => {
            let (address, byte) = aim::store_with_index(chance, model);
            Call::StoreWithIndexForViewers { address, byte }
        }
        Choice::Explain => explain(chance, model),
        Choice::ReadZ80 => Call::ReadZ80 {
            address: aim::z80(chance),
        },
        Choice::StoreZ80 => Call::StoreZ80 {
            address: aim::z80(chance),
            byte: chance.byte(),
        },
        _ => numbered(chance, choice),
    }
}

/// A cell to be explained, with a row or a column that is none now and then.
fn explain(chance: &mut Chance, model: &Model) -> Call {
    let (row, column) = aim::cell(chance, model);
    match chance.below(8) {
        0 => Call::Explain {
            row: about(chance, ROWS),
            column,
        },
        1 => Call::Explain {
            row,
            column: about(chance, PAIRS),
        },
        _ => Call::Explain { row, column },
    }
}

/// A call by row, scan, place, viewer or code.
fn numbered(chance: &mut Chance, choice: Choice) -> Call {
    match choice {
        Choice::Ask => Call::Ask {
            viewer: about(chance, VIEWERS),
        },
        Choice::ReadShadow => Call::ReadShadow {
            place: about(chance, SHADOW),
        },
        Choice::WriteShadow => Call::WriteShadow {
            place: about(chance, SHADOW),
            value: chance.byte(),
        },
        Choice::Marked => Call::IsMarked {
            marks: chance.below(1 << 32) as u32,
            row: about(chance, MARK_BITS),
        },
        Choice::Line => Call::ScanLine {
            row: about(chance, ROWS),
            scan: match chance.below(4) {
                0 => UNDERLINE_SCAN,
                _ => about(chance, SCANS + 1),
            },
        },
        _ => Call::GlyphPart {
            code: chance.byte(),
        },
    }
}

/// In a true run a call that leaves the picture behind, or a kept index, is made another one; so is a store with an
/// index that may be untrue.
fn keeping(choice: Choice, sides: &Sides, way: Way) -> Choice {
    let indexed = way == Way::Indexed;
    match choice {
        Choice::Store8088 => Choice::Plain(Call::DrawAfresh),
        Choice::Stored if indexed => Choice::StoredWithIndex,
        Choice::StoredForViewers if indexed => Choice::StoredWithIndexForViewers,
        Choice::StoredWithIndex | Choice::StoredWithIndexForViewers if !sides.indexed.kept => {
            Choice::Plain(Call::IndexReaders)
        }
        choice => choice,
    }
}

/// The next step. In a true run the picture is never left behind: it is drawn first, and again as soon as the
/// columns have changed; and so is the index, if one is kept.
pub fn step(chance: &mut Chance, sides: &Sides, way: Way) -> Step {
    let indexed = way == Way::Indexed;
    let true_run = way == Way::True || indexed;
    if true_run && !sides.kept {
        return chance.of(&[Call::Draw, Call::DrawForViewers]).into();
    }
    if indexed && !sides.indexed.kept {
        return Call::IndexReaders.into();
    }
    if !true_run && chance.below(60) == 0 {
        return by_hand::any(chance).into();
    }
    let machine = &sides.model.machine;
    // A cell was explained: the desk stores into the place that was named, and looks at the screen again.
    if sides.has_promise() {
        return Call::DrawAfresh.into();
    }
    if let (Some(asked), 0, false) = (sides.asked, chance.below(2), indexed) {
        let (address, byte) = aim::other_byte(chance, &sides.model, asked.place);
        return Call::StoreWithPicture { address, byte }.into();
    }
    match way {
        Way::Z80 if chance.below(4) > 0 => {
            let call = about_the_z80(chance);
            return lent(chance, call);
        }
        Way::Watchdog(manner) => return watch_runs::step(chance, &sides.model, manner),
        // Else a run would be refused most of its calls from the first reset on.
        _ if machine.reset && chance.below(5) == 0 => {
            return watch_runs::ticks(chance, machine).into()
        }
        _ => {}
    }
    let choice = match choice(chance) {
        choice if true_run => keeping(choice, sides, way),
        choice => choice,
    };
    let call = call(chance, &sides.model, choice);
    lent(chance, call)
}
