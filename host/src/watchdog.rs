//! Document 02, ticket 3: the watchdog, which resets an 8088 that hangs. Its count and the reset are fields of the
//! machine. `history` says the same of whole runs, without a count.
use crate::machine::Machine;
use crate::Answer;

/// "Take 128 ticks for both": from the last acknowledgement to the reset, and from its beginning to its end.
const TICKS: u8 = 128;

impl Machine {
    /// "one call advances them by a tick". What is in reset comes out of it whether the watchdog is enabled or not, and
    /// a count over 127 is as 127; no run of calls makes such a machine.
    pub fn watchdog_tick(&mut self) {
        if !self.watchdog && !self.reset {
            self.count = 0;
            return;
        }
        let counted = self.count.min(TICKS - 1) + 1;
        self.count = counted % TICKS;
        self.reset ^= counted == TICKS;
    }

    /// What an accepted code to a port of the DC012 does to the watchdog. "The count goes to 0 at code 09 and stays 0
    /// while disabled." It is 0 at the enabling. "Other codes to port 0C, while it is enabled, leave the count."
    pub fn watch(&mut self, enables: bool, code: u8) {
        let was_enabled = self.watchdog;
        self.watchdog = enables;
        if code == 0x09 || !was_enabled || !enables {
            self.count = 0;
        }
    }

    /// "8, the 8088 is in reset": whether an access of the 8088 is let through, as far as that goes.
    pub fn runs_8088(&self) -> Answer<()> {
        match self.reset {
            true => Err(8),
            false => Ok(()),
        }
    }
}

#[cfg(test)]
mod tests {
    use super::*;
    use crate::memories::{NVM, SHADOW};

    /// The codes that a port of the DC012 has.
    const CODES: std::ops::Range<u8> = 0x00..0x0C;

    fn ticked(mut machine: Machine, ticks: usize) -> Machine {
        (0..ticks).for_each(|_| machine.watchdog_tick());
        machine
    }

    /// The machine after a write, and the answer.
    fn written(mut machine: Machine, port: u16, code: u8) -> (Machine, Answer<()>) {
        let answer = machine.write(&mut [0xA5; SHADOW], &mut [0x5A; NVM], port, code);
        (machine, answer)
    }

    fn accepted(machine: Machine, port: u16, code: u8) -> Machine {
        let (machine, answer) = written(machine, port, code);
        assert_eq!(answer, Ok(()), "{port:X} {code:02X}");
        machine
    }

    /// A machine whose fields are not those of power-up, with the watchdog enabled by a code.
    fn enabled_by(code: u8) -> Machine {
        let before = Machine {
            columns: 132,
            hertz: 50,
            latch: 0x0A,
            interrupt: true,
            held: 0x83,
            ..Machine::power_up()
        };
        accepted(before, 0x0C, code)
    }

    /// "While enabled, reset begins at the 128th tick after the last .. enabling", by whichever code, and not at the
    /// 127th. "Reset ends at the 128th tick after it began, with the count 0 and the watchdog still enabled; nothing
    /// else in the machine changes." After "the end of reset" it is the same again.
    #[test]
    fn reset_begins_and_ends_at_the_128th_tick() {
        for code in CODES {
            let enabled = enabled_by(code);
            assert_eq!((enabled.count, enabled.reset), (0, false));
            for ticks in 0..=1000 {
                let wanted = Machine {
                    count: (ticks % 128) as u8,
                    reset: (128..256).contains(&(ticks % 256)),
                    ..enabled
                };
                assert_eq!(ticked(enabled, ticks), wanted, "{code:02X}, {ticks} ticks");
            }
        }
    }

    /// "reset begins at the 128th tick after the last code 09": whenever it is written, to port 0C.
    #[test]
    fn code_09_begins_the_count_anew() {
        for before in 0..128 {
            let acknowledged = accepted(ticked(enabled_by(0x01), before), 0x0C, 0x09);
            assert_eq!((acknowledged.count, acknowledged.interrupt), (0, false));
            let last = ticked(acknowledged, 127);
            assert_eq!((last.count, last.reset), (127, false));
            assert!(ticked(acknowledged, 128).reset, "{before}");
        }
    }

    /// "Other codes to port 0C, while it is enabled, leave the count.": and so do codes to 04 and to 0A.
    #[test]
    fn other_codes_leave_the_count() {
        let others = CODES.filter(|code| *code != 0x09).map(|code| (0x0C, code));
        let elsewhere = [(0x04, 0x00), (0x04, 0x30), (0x0A, 0x09), (0x0A, 0x40)];
        for (port, code) in others.chain(elsewhere) {
            for before in [0, 1, 126, 127] {
                let after = accepted(ticked(enabled_by(0x01), before), port, code);
                assert_eq!(usize::from(after.count), before, "{port:X} {code:02X}");
                assert!(after.watchdog);
                assert!(!ticked(after, 127 - before).reset);
                assert!(ticked(after, 128 - before).reset);
            }
        }
    }

    /// "The count .. stays 0 while disabled": from power-up on, and from a write to 10C on, code 09 too.
    #[test]
    fn a_disabled_watchdog_does_not_count() {
        let disabled = CODES.map(|code| accepted(ticked(enabled_by(0x01), 100), 0x10C, code));
        for machine in disabled.chain([Machine::power_up()]) {
            assert_eq!((machine.watchdog, machine.count), (false, 0));
            assert_eq!(ticked(machine, 1), machine);
            assert_eq!(ticked(machine, 1000), machine);
        }
    }

    /// "after the last .. enabling": what was counted before the disabling does not count after it.
    #[test]
    fn enabling_begins_the_count_anew() {
        for (off, on) in CODES.zip(CODES.rev()) {
            let disabled = accepted(ticked(enabled_by(0x01), 100), 0x10C, off);
            let again = accepted(ticked(disabled, 50), 0x0C, on);
            assert_eq!((again.watchdog, again.count), (true, 0));
            assert!(!ticked(again, 127).reset);
            assert!(ticked(again, 128).reset);
        }
    }

    /// "all buffers and the machine stay" where a write is refused: it is no acknowledgement, enabling or disabling.
    #[test]
    fn a_refused_write_leaves_the_watchdog() {
        for before in [Machine::power_up(), ticked(enabled_by(0x01), 100)] {
            for (port, code) in [(0x0C, 0x0C), (0x10C, 0x0C), (0x0C, 0x89), (0x05, 0x09)] {
                let (after, answer) = written(before, port, code);
                assert_eq!(answer, Err(if port == 0x05 { 3 } else { 4 }));
                assert_eq!(after, before);
            }
            for port in [0x0C, 0x10C] {
                let mut after = before;
                let answer = after.write(&mut [0; SHADOW - 1], &mut [0; NVM], port, 0x09);
                assert_eq!((answer, after), (Err(1), before));
            }
        }
    }

    /// "Refusals: 8, the 8088 is in reset, after 1, ahead of 2 to 6": every port and code, and the count goes on.
    #[test]
    fn no_port_is_written_in_reset() {
        let reset = ticked(enabled_by(0x01), 200);
        for port in [0x04, 0x0A, 0x0C, 0x10C, 0x05, 0x109] {
            for code in 0x00..=0xFF {
                assert_eq!(written(reset, port, code), (reset, Err(8)));
            }
            for (shadow, nvm) in [(SHADOW + 1, NVM), (SHADOW, 0)] {
                let (mut after, mut shadow, mut nvm) = (reset, vec![1; shadow], vec![2; nvm]);
                let answer = after.write(&mut shadow, &mut nvm, port, 0x09);
                assert_eq!((answer, after), (Err(1), reset));
                assert!(shadow.iter().all(|byte| *byte == 1) && nvm.iter().all(|byte| *byte == 2));
            }
        }
        assert!(ticked(reset, 55).reset);
        assert!(!ticked(reset, 56).reset);
    }

    /// Machines that no run of calls makes. A count over 127 is as 127; in reset it is counted though the watchdog is
    /// disabled; else a disabled one has the count 0 after a tick.
    #[test]
    fn odd_machines() {
        for count in 0..=255 {
            for (watchdog, reset) in [(false, false), (true, false), (false, true), (true, true)] {
                let before = Machine {
                    watchdog,
                    count,
                    reset,
                    ..Machine::power_up()
                };
                let (count, reset) = match count {
                    _ if !watchdog && !reset => (0, false),
                    0..=126 => (count + 1, reset),
                    _ => (0, !reset),
                };
                let after = Machine {
                    count,
                    reset,
                    ..before
                };
                assert_eq!(ticked(before, 1), after);
            }
        }
    }

    /// Of odd machines too: the enabling, the disabling and code 09 set any count to 0, and other codes leave it.
    #[test]
    fn writes_to_odd_machines() {
        for count in 0..=255 {
            for watchdog in [false, true] {
                for (port, code) in [(0x0C, 0x08), (0x0C, 0x09), (0x10C, 0x08), (0x10C, 0x09)] {
                    let before = Machine {
                        watchdog,
                        count,
                        ..Machine::power_up()
                    };
                    let left = watchdog && (port, code) == (0x0C, 0x08);
                    let after = accepted(before, port, code);
                    assert_eq!(after.count, if left { count } else { 0 });
                    assert_eq!(after.watchdog, port == 0x0C);
                }
            }
        }
    }
}
