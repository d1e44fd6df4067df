//! Every port, code, edge, row, scan and place once, before calls are chosen by chance.
use super::aim::EDGES;
use super::call::{Call, Step, WRONG_LENGTHS};
use super::index_sweep;
use super::viewer_sweep;
use crate::chain::{PAIRS, ROWS};
use crate::dots::SCANS;
use crate::machine::Machine;
use crate::memories::SHADOW;
use crate::mending::MARK_BITS;

/// The calls of the sweep in pieces, each for a world of its own.
pub fn pieces() -> Vec<Vec<Step>> {
    let pieces = [
        ports(),
        latches(),
        edges(),
        held(),
        addresses(),
        places(),
        lines(),
        marks(),
        cells(),
        viewer_sweep::asks(),
        index_sweep::entries(),
        in_reset(),
    ];
    let mut all: Vec<Vec<Step>> = pieces
        .iter()
        .map(|calls| calls.iter().copied().map(Step::from).collect())
        .collect();
    all.push(lengths());
    all
}

fn ports() -> Vec<Call> {
    let of_port = |port| (0..=255).map(move |code| Call::WritePort { port, code });
    let each =
        (0..=0x10F).flat_map(|port| [0x00, 0x05, 0x10].map(|code| Call::WritePort { port, code }));
    let listed = [0x04, 0x0A, 0x0C, 0x10C].into_iter().flat_map(of_port);
    listed.chain(each).collect()
}

/// Every byte in the latch: read, used by the whole screen, loaded by a code from 00 to 07, and read and used again.
fn latches() -> Vec<Call> {
    let mut calls = Vec::new();
    for latch in 0..=255 {
        let machine = Machine {
            latch,
            ..Machine::power_up()
        };
        let (port, code) = (0x0C, latch / 16 % 8);
        calls.push(Call::SetMachine(machine));
        calls.extend([Call::ScrollLatch, Call::ListLines]);
        calls.push(Call::WritePort { port, code });
        calls.extend([Call::ScrollLatch, Call::ListLines]);
    }
    calls
}

/// Every code to port 0A after bytes about its edges, with a shadow that differs from the NVM.
fn edges() -> Vec<Call> {
    let mut calls = Vec::new();
    for held in [0x00, 0x3F, 0x40, 0x7F, 0x80, 0xBF, 0xC0, 0xFF] {
        for code in 0..=255 {
            let machine = Machine {
                held,
                ..Machine::power_up()
            };
            let (place, value) = (code.into(), held ^ code);
            calls.push(Call::SetMachine(machine));
            calls.push(Call::WriteShadow { place, value });
            calls.push(Call::WritePort { port: 0x0A, code });
        }
    }
    calls
}

/// Every code to port 0A, some of them refused, with the Z80 held and running before it; then a read and a store of the
/// Z80 in private and in shared memory.
fn held() -> Vec<Call> {
    let mut calls = Vec::new();
    for held in [0x00, 0x01, 0xFE, 0xFF] {
        for code in 0..=255 {
            let machine = Machine {
                held,
                ..Machine::power_up()
            };
            calls.push(Call::SetMachine(machine));
            calls.push(Call::WritePort { port: 0x0A, code });
            calls.push(Call::Z80Runs);
            for address in [0x07FF, 0x0800] {
                let byte = code ^ 0x5A;
                calls.push(Call::ReadZ80 { address });
                calls.push(Call::StoreZ80 { address, byte });
            }
        }
    }
    calls
}

fn addresses() -> Vec<Call> {
    let mut calls = vec![Call::Draw];
    for address in EDGES {
        calls.push(Call::Read8088 { address });
        for byte in [0x00, 0xFF, 0x41] {
            calls.push(Call::StoreWithPicture { address, byte });
            calls.push(Call::Store8088 { address, byte });
            calls.push(Call::DrawAfresh);
        }
        let address = address as u16;
        for (code, byte) in [(0x00, 0x41), (0x01, 0x42)] {
            calls.push(Call::WritePort { port: 0x0A, code });
            calls.push(Call::ReadZ80 { address });
            calls.push(Call::StoreZ80 { address, byte });
        }
    }
    calls
}

fn places() -> Vec<Call> {
    let huge = [1 << 16, 1 << 32, usize::MAX - SHADOW + 1, usize::MAX];
    let of_place = |place| {
        let value = place as u8 ^ 0xA5;
        let read = Call::ReadShadow { place };
        [read, Call::WriteShadow { place, value }, read]
    };
    let shadow = (0..SHADOW + 5).chain(huge).flat_map(of_place);
    let parts = (0..=255).map(|code| Call::GlyphPart { code });
    shadow.chain(parts).collect()
}

fn lines() -> Vec<Call> {
    let shown = Call::WritePort {
        port: 0x0A,
        code: 0x02,
    };
    let mut calls = vec![shown, Call::Draw];
    for row in (0..=ROWS).chain([255, usize::MAX]) {
        for scan in (0..=SCANS + 1).chain([16, usize::MAX]) {
            calls.push(Call::ScanLine { row, scan });
        }
    }
    calls
}

fn marks() -> Vec<Call> {
    let of_marks = |marks| {
        let rows = (0..MARK_BITS + 2).chain([64, 1 << 32, usize::MAX]);
        rows.map(move |row| Call::IsMarked { marks, row })
    };
    let (last, rows) = (1 << (ROWS - 1), (1 << ROWS) - 1);
    let all = [0, 1, last, rows, last << 1, 0x8000_0000, u32::MAX];
    all.into_iter().flat_map(of_marks).collect()
}

/// Rows and columns that are there and that are not, at both settings.
fn cells() -> Vec<Call> {
    let mut calls = Vec::new();
    let huge = [255, 256, 1 << 16, 1 << 32, usize::MAX - 1, usize::MAX];
    for code in [0x00, 0x10] {
        calls.push(Call::WritePort { port: 0x04, code });
        for row in (0..=ROWS + 1).chain(huge) {
            let ends = [0, 1, 39, 40, 65, 66, 79, 80, PAIRS - 1, PAIRS, PAIRS + 1];
            let columns = ends.into_iter().chain(huge);
            calls.extend(columns.map(|column| Call::Explain { row, column }));
        }
    }
    calls
}

/// In reset: every access of the 8088, with what 2 to 6 refuse too, and then what goes on, the Z80 held and running.
fn in_reset() -> Vec<Call> {
    let mut calls = Vec::new();
    for held in [0x02, 0x03] {
        calls.push(Call::SetMachine(resetting(held)));
        for address in EDGES {
            let byte = 0x41;
            calls.push(Call::Read8088 { address });
            calls.push(Call::Store8088 { address, byte });
            calls.push(Call::StoreWithPicture { address, byte });
            calls.push(Call::StoreForViewers { address, byte });
            calls.push(Call::StoreWithIndex { address, byte });
            calls.push(Call::StoreWithIndexForViewers { address, byte });
        }
        for place in [0, 255, 256, usize::MAX] {
            calls.push(Call::ReadShadow { place });
            calls.push(Call::WriteShadow { place, value: 5 });
        }
        calls.extend(ports());
        for address in [0x07FF, 0x0800] {
            let byte = 0x42;
            calls.push(Call::StoreZ80 { address, byte });
            calls.push(Call::ReadZ80 { address });
        }
        calls.extend([Call::Draw, Call::DrawAfresh, Call::VerticalTick]);
        calls.extend([Call::IndexReaders, Call::IndexAfresh]);
        calls.extend([Call::DrawForViewers, Call::Ask { viewer: 7 }]);
        calls.extend([Call::Ask { viewer: 8 }, Call::StartViewers]);
        for (row, scan) in [(0, 1), (ROWS, 1), (0, 0)] {
            calls.push(Call::ScanLine { row, scan });
        }
        calls.extend([Call::ListLines, Call::GlyphPart { code: 0x41 }]);
        for (row, column) in [(0, 0), (ROWS, 0), (0, PAIRS)] {
            calls.push(Call::Explain { row, column });
        }
        calls.extend([Call::Columns, Call::Z80Runs, Call::Blanked, Call::Graphics]);
        calls.extend([Call::ScrollLatch, Call::DotsOfLine]);
        calls.extend([Call::PowerUp, Call::Version]);
        calls.push(Call::WatchdogTick { times: 300 });
    }
    calls
}

/// A machine that is some ticks in reset.
fn resetting(held: u8) -> Machine {
    Machine {
        watchdog: true,
        count: 5,
        reset: true,
        held,
        ..Machine::power_up()
    }
}

/// Every call that is lent buffers, with each of them of each wrong length; those of the Z80 while it is held and while
/// it runs, those of the 8088 while it runs and while it is in reset, the whole screen's with a latch that is refused
/// and with one that is not.
fn lengths() -> Vec<Step> {
    let (address, byte) = (0xEE000, 0x41);
    let calls = [
        Call::WritePort { port: 4, code: 0 },
        Call::Read8088 { address },
        Call::Store8088 { address, byte },
        Call::ReadZ80 { address: 0 },
        Call::StoreZ80 { address: 0, byte },
        Call::ReadShadow { place: 0 },
        Call::WriteShadow { place: 0, value: 1 },
        Call::Draw,
        Call::StoreWithPicture { address, byte },
        Call::DrawForViewers,
        Call::StoreForViewers { address, byte },
        Call::IndexReaders,
        Call::StoreWithIndex { address, byte },
        Call::StoreWithIndexForViewers { address, byte },
        Call::GlyphPart { code: 0x41 },
        Call::ScanLine { row: 0, scan: 1 },
        Call::ListLines,
        Call::Explain { row: 0, column: 0 },
        Call::Explain {
            row: ROWS,
            column: PAIRS,
        },
    ];
    let mut steps = Vec::new();
    for (held, latch) in [(0x00, 0x09), (0x01, 0x0A)] {
        let reset = Machine {
            latch,
            ..resetting(held)
        };
        let runs = Machine {
            reset: false,
            ..reset
        };
        for machine in [runs, reset] {
            steps.push(Call::SetMachine(machine).into());
            steps.push(Call::SetViewers([0, 1, 2, 4, 8, 1 << 24, 1 << 25, 1 << 31]).into());
            steps.extend(calls.iter().flat_map(|call| wrong_lengths(*call)));
        }
    }
    steps
}

fn wrong_lengths(call: Call) -> Vec<Step> {
    let mut steps = Vec::new();
    for length in WRONG_LENGTHS {
        let mut all = Step::from(call);
        for buffer in call.buffers() {
            let mut one = Step::from(call);
            one.lent.set(*buffer, length);
            all.lent.set(*buffer, length);
            steps.push(one);
        }
        steps.push(all);
    }
    steps
}
