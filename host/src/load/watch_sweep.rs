//! The watchdog swept: every code at each port after ticks about the 128th, and machines that no run of calls makes.
use super::call::{Call, Step};
use crate::machine::Machine;
use crate::memories::{NVM, SHADOW};

/// Ticks about each multiple of 128, up to the third.
const TICKS: [u32; 18] = [
    0, 1, 2, 126, 127, 128, 129, 130, 254, 255, 256, 257, 258, 382, 383, 384, 385, 386,
];

/// So many ticks follow each code, each of them compared.
const AFTER: u32 = 130;

/// The ports, and one that is none of them.
const PORTS: [u16; 5] = [0x04, 0x0A, 0x0C, 0x10C, 0x109];

/// The calls in pieces, each for a world of its own. Only one in `every` of the codes and odd machines is tried.
pub fn pieces(every: usize) -> Vec<Vec<Step>> {
    let mut pieces = after_ticks(every);
    pieces.extend(odd(every));
    let steps = |calls: Vec<Call>| calls.into_iter().map(Step::from).collect();
    pieces.into_iter().map(steps).collect()
}

fn write(port: u16, code: u8) -> Call {
    Call::WritePort { port, code }
}

fn ticks(times: u32) -> Vec<Call> {
    match times {
        0 => Vec::new(),
        _ => vec![Call::WatchdogTick { times }],
    }
}

/// What the runs begin with, from power-up: nothing; enabled by each code, with an interrupt for 09 to clear; enabled
/// and then disabled; in reset.
fn starts() -> Vec<Vec<Call>> {
    let mut starts = vec![Vec::new()];
    starts.extend((0x00..0x0C).map(|code| vec![Call::VerticalTick, write(0x0C, code)]));
    starts.push(vec![write(0x0C, 0x01), write(0x10C, 0x02)]);
    starts.push([vec![write(0x0C, 0x05)], ticks(128)].concat());
    starts
}

/// The machine after a call, by the model.
fn after(mut machine: Machine, call: &Call) -> Machine {
    match *call {
        Call::VerticalTick => machine.interrupt = true,
        Call::WatchdogTick { times } => (0..times).for_each(|_| machine.watchdog_tick()),
        Call::WritePort { port, code } => {
            let _ = machine.write(&mut [0; SHADOW], &mut [0; NVM], port, code);
        }
        _ => {}
    }
    machine
}

/// A piece for each start and each number of ticks: every code to each port, and then ticks. A machine that came up
/// before is not tried again, since a library keeps nothing else from call to call.
fn after_ticks(every: usize) -> Vec<Vec<Call>> {
    let (mut pieces, mut tried) = (Vec::new(), Vec::new());
    let mut turn = 0;
    for start in starts() {
        for times in TICKS {
            let mut calls = vec![Call::SetMachine(Machine::power_up())];
            calls.extend(&start);
            calls.extend(ticks(times));
            let machine = calls.iter().fold(Machine::power_up(), after);
            if !tried.contains(&machine) {
                tried.push(machine);
                let codes = PORTS.iter().flat_map(|port| {
                    let codes = 0x00..=0xFF;
                    codes.map(|code| write(*port, code))
                });
                let chosen = codes.filter(|_| {
                    turn += 1;
                    turn % every == 0
                });
                each_code(&mut calls, machine, chosen);
            }
            pieces.push(calls);
        }
    }
    pieces
}

fn each_code(calls: &mut Vec<Call>, machine: Machine, writes: impl Iterator<Item = Call>) {
    let mut tried = Vec::new();
    for write in writes {
        calls.push(Call::SetMachine(machine));
        calls.push(write);
        let written = after(machine, &write);
        if !tried.contains(&written) {
            tried.push(written);
            calls.extend(ticks(AFTER));
        }
    }
}

/// Every count, with the reset and the watchdog each way: ticks of both clocks, reads, and the codes of the DC012, the
/// first that it has not among them, to both ports. A piece for each way.
fn odd(every: usize) -> Vec<Vec<Call>> {
    let mut calls = vec![
        Call::WatchdogTick { times: 1 },
        Call::WatchdogTick { times: 2 },
        Call::VerticalTick,
        Call::Read8088 { address: 0xEE000 },
        Call::ReadShadow { place: 255 },
    ];
    for port in [0x0C, 0x10C] {
        calls.extend((0x00..=0x0C).map(|code| write(port, code)));
    }
    let ways = [(false, false), (true, false), (false, true), (true, true)];
    let piece = |(watchdog, reset)| {
        let machine = |count| Machine {
            interrupt: true,
            watchdog,
            count,
            reset,
            ..Machine::power_up()
        };
        let counts = (0x00..=0xFF).map(machine);
        let pairs = counts.flat_map(|machine| calls.iter().map(move |call| (machine, *call)));
        pairs
            .step_by(every)
            .flat_map(|(machine, call)| [Call::SetMachine(machine), call])
            .collect()
    };
    ways.into_iter().map(piece).collect()
}
