//! Document 01, "Ports": the machine and the write ports. Document 02, ticket 2: when the Z80 runs; what ticket 3 says
//! of the machine is in `watchdog`.
use crate::memories::{NVM, SHADOW};
use crate::Answer;

#[derive(Clone, Copy, Debug, PartialEq, Eq)]
pub struct Machine {
    pub columns: u16,
    pub hertz: u8,
    pub interlace: bool,
    pub latch: u8,
    pub blink: bool,
    pub interrupt: bool,
    pub reverse: bool,
    pub watchdog: bool,
    /// The watchdog's count of ticks.
    pub count: u8,
    /// The 8088 is in reset.
    pub reset: bool,
    pub held: u8,
}

impl Machine {
    pub fn power_up() -> Self {
        Self {
            columns: 80,
            hertz: 60,
            interlace: false,
            latch: 0,
            blink: false,
            interrupt: false,
            reverse: false,
            watchdog: false,
            count: 0,
            reset: false,
            held: 0,
        }
    }

    /// 02, ticket 2: "the Z80 runs only while the bit is 1", bit 0 of port 0A.
    pub fn z80_runs(&self) -> bool {
        self.held & 0b001 != 0
    }

    pub fn blanked(&self) -> bool {
        self.held & 0b010 == 0
    }

    pub fn graphics(&self) -> bool {
        self.held & 0b100 != 0
    }

    /// "The latch is read modulo 16".
    pub fn scroll_latch(&self) -> u8 {
        self.latch % 16
    }

    /// Writes a code to a port. A refused write changes neither the machine nor the two memories.
    pub fn write(&mut self, shadow: &mut [u8], nvm: &mut [u8], port: u16, code: u8) -> Answer<()> {
        if shadow.len() != SHADOW || nvm.len() != NVM {
            return Err(1);
        }
        self.runs_8088()?;
        match port {
            0x04 => self.dc011(code),
            0x0A => self.diagnostic(shadow, nvm, code),
            0x0C | 0x10C => {
                self.dc012(code)?;
                self.watch(port == 0x0C, code);
                Ok(())
            }
            _ => Err(3),
        }
    }

    fn dc011(&mut self, code: u8) -> Answer<()> {
        match code {
            0x00 => self.columns = 80,
            0x10 => self.columns = 132,
            0x20 => self.hertz = 60,
            0x30 => self.hertz = 50,
            _ => return Err(4),
        }
        self.interlace = code < 0x20;
        Ok(())
    }

    fn dc012(&mut self, code: u8) -> Answer<()> {
        match code {
            0x00..=0x03 => self.latch = self.latch & 0b1100 | code,
            0x04..=0x07 => self.latch = self.latch & 0b0011 | (code & 3) << 2,
            0x08 => self.blink ^= true,
            0x09 => self.interrupt = false,
            0x0A => self.reverse = true,
            0x0B => self.reverse = false,
            _ => return Err(4),
        }
        Ok(())
    }

    fn diagnostic(&mut self, shadow: &mut [u8], nvm: &mut [u8], code: u8) -> Answer<()> {
        let rising = code & !self.held;
        match rising & 0xC0 {
            0xC0 => return Err(6),
            0x40 => nvm.copy_from_slice(shadow),
            0x80 => shadow.copy_from_slice(nvm),
            _ => {}
        }
        self.held = code;
        Ok(())
    }
}

#[cfg(test)]
mod tests {
    use super::*;

    const PORTS: [u16; 4] = [0x04, 0x0A, 0x0C, 0x10C];

    /// Every field another than at power-up, but for the reset, in which no write is accepted.
    fn other() -> Machine {
        Machine {
            columns: 132,
            hertz: 50,
            interlace: true,
            latch: 0x0F,
            blink: true,
            interrupt: true,
            reverse: true,
            watchdog: true,
            count: 100,
            reset: false,
            held: 0xC2,
        }
    }

    /// Writes codes one after another, with a shadow and an NVM of 00s.
    fn written(machine: Machine, port: u16, codes: &[u8]) -> Answer<Machine> {
        let mut machine = machine;
        for code in codes {
            machine.write(&mut [0; SHADOW], &mut [0; NVM], port, *code)?;
        }
        Ok(machine)
    }

    /// "At power-up: port 0A holds 00, 80 columns, 60 Hz, not interlaced, all else clear"
    #[test]
    fn at_power_up() {
        let machine = Machine {
            columns: 80,
            hertz: 60,
            interlace: false,
            latch: 0,
            blink: false,
            interrupt: false,
            reverse: false,
            watchdog: false,
            count: 0,
            reset: false,
            held: 0x00,
        };
        assert_eq!(Machine::power_up(), machine);
    }

    /// 02, ticket 2: "this bit resets the Z80 and .. reset is active at power-up, and the unblanking value 83 .. has
    /// it set. So the Z80 runs only while the bit is 1."
    #[test]
    fn z80_is_held_at_power_up_and_runs_after_83() {
        assert!(!Machine::power_up().z80_runs());
        for (code, runs) in [(0x83, true), (0x01, true), (0x82, false), (0xBE, false)] {
            let machine = written(Machine::power_up(), 0x0A, &[code]).unwrap();
            assert_eq!(machine.z80_runs(), runs, "{code:02X}");
        }
    }

    /// 02, ticket 2: "So the Z80 runs only while the bit is 1." Bit 0 of the code decides, whatever was held before it.
    #[test]
    fn bit_0_alone_lets_the_z80_run() {
        for held in 0x00..=0xFF {
            let before = Machine { held, ..other() };
            assert_eq!(before.z80_runs(), held % 2 == 1, "{held:02X}");
            for code in 0x00..=0xFF {
                let runs = written(before, 0x0A, &[code]).map(|machine| machine.z80_runs());
                let both_rise = held < 0x40 && code >= 0xC0;
                let wanted = if both_rise { Err(6) } else { Ok(code % 2 == 1) };
                assert_eq!(runs, wanted, "{held:02X}, then {code:02X}");
            }
        }
    }

    /// 01: "A refusal returns its number .. all buffers and the machine stay": so does the bit that a write would have
    /// changed.
    #[test]
    fn a_refused_write_leaves_the_z80_as_it_was() {
        for (held, nvm, code, number) in [
            (0x00, NVM, 0xC1, 6),
            (0x01, NVM, 0xC0, 6),
            (0x02, NVM + 1, 0x01, 1),
            (0x83, NVM - 1, 0x82, 1),
        ] {
            let mut machine = Machine { held, ..other() };
            let answer = machine.write(&mut [0; SHADOW], &mut vec![0; nvm], 0x0A, code);
            assert_eq!((answer, machine.held), (Err(number), held));
            assert_eq!(machine.z80_runs(), held % 2 == 1);
        }
    }

    /// 02, ticket 2: "bit 0 of port 0A". No code of another port lets the Z80 run or holds it.
    #[test]
    fn the_other_ports_leave_the_z80() {
        for held in [0x00, 0xFE, 0x01, 0xFF] {
            let before = Machine { held, ..other() };
            for (port, code) in [(0x04, 0x10), (0x04, 0x20), (0x0C, 0x01), (0x10C, 0x00)] {
                let after = written(before, port, &[code]).unwrap();
                assert_eq!(after.z80_runs(), before.z80_runs(), "{port:X} {code:02X}");
            }
        }
    }

    /// "00 sets 80 columns, 10 sets 132, and both set interlace; 20 sets 60 Hz, 30 sets 50 Hz, and both clear
    /// interlace."
    #[test]
    fn dc011_codes() {
        for before in [Machine::power_up(), other()] {
            for (code, columns, hertz, interlace) in [
                (0x00, 80, before.hertz, true),
                (0x10, 132, before.hertz, true),
                (0x20, before.columns, 60, false),
                (0x30, before.columns, 50, false),
            ] {
                let after = Machine {
                    columns,
                    hertz,
                    interlace,
                    ..before
                };
                assert_eq!(written(before, 0x04, &[code]), Ok(after));
            }
        }
    }

    /// "DC011 00 then 20; 20 then 00: not interlaced; interlaced"
    #[test]
    fn p9_interlace() {
        let interlace = |codes: &[u8]| {
            let machine = written(Machine::power_up(), 0x04, codes);
            machine.map(|machine| machine.interlace)
        };
        assert_eq!(interlace(&[0x00, 0x20]), Ok(false));
        assert_eq!(interlace(&[0x20, 0x00]), Ok(true));
    }

    /// "00 to 03 load the low two bits of the scroll latch, 04 to 07 its high two bits". "The latch is read modulo 16,
    /// and a load leaves it under 16."
    #[test]
    fn latch_loads() {
        for latch in 0..=255 {
            for code in 0x00..=0x07 {
                let before = Machine { latch, ..other() };
                let after = Machine {
                    latch: match code {
                        0x00..=0x03 => latch % 16 / 4 * 4 + code,
                        _ => (code - 4) * 4 + latch % 4,
                    },
                    ..before
                };
                assert_eq!(written(before, 0x0C, &[code]), Ok(after));
            }
        }
    }

    /// "The latch is read modulo 16"
    #[test]
    fn latch_is_read_modulo_16() {
        for (latch, read) in [(0, 0), (15, 15), (16, 0), (0x1F, 15), (0xFA, 10)] {
            let machine = Machine { latch, ..other() };
            assert_eq!(machine.scroll_latch(), read);
        }
    }

    /// "08 toggles the blink flip-flop, 09 clears the vertical interrupt, 0A sets reverse field, 0B clears it."
    #[test]
    fn dc012_codes() {
        let (clear, set) = (Machine::power_up(), other());
        for before in [clear, set] {
            let code = |code| written(before, 0x0C, &[code]).unwrap();
            assert_eq!(code(0x08).blink, !before.blink);
            assert!(!code(0x09).interrupt);
            assert!(code(0x0A).reverse);
            assert!(!code(0x0B).reverse);
        }
        let all = [0x08, 0x09, 0x0B];
        let after = Machine {
            blink: false,
            interrupt: false,
            reverse: false,
            count: 0,
            ..set
        };
        assert_eq!(written(set, 0x0C, &all), Ok(after));
    }

    /// "An accepted write to port 0C also enables the watchdog, one to port 10C disables it". "Codes 0C and up are
    /// refused".
    #[test]
    fn watchdog() {
        for before in [Machine::power_up(), other()] {
            for code in 0x00..=0xFF {
                let (enabled, disabled) = (
                    written(before, 0x0C, &[code]),
                    written(before, 0x10C, &[code]),
                );
                if code < 0x0C {
                    assert!(enabled.unwrap().watchdog);
                    assert!(!disabled.unwrap().watchdog);
                } else {
                    assert_eq!((enabled, disabled), (Err(4), Err(4)));
                }
            }
        }
    }

    /// "bit 1 clear blanks the display; bit 2 set selects the graphics board." "Every byte is a code of this port.
    /// The other bits are only held."
    #[test]
    fn port_0a_holds_every_byte() {
        for code in (0x00..=0xFF).filter(|code| code & 0xC0 != 0xC0) {
            let machine = written(Machine::power_up(), 0x0A, &[code]).unwrap();
            assert_eq!(machine.blanked(), code / 2 % 2 == 0);
            assert_eq!(machine.graphics(), code / 4 % 2 == 1);
            let held = Machine {
                held: code,
                ..Machine::power_up()
            };
            assert_eq!(machine, held);
        }
    }

    /// "A write in which bit 6 goes from 0 to 1 copies shadow to NVM; bit 7 from 0 to 1 copies NVM to shadow". "The
    /// copies between shadow and NVM move all 256 bytes as they are."
    #[test]
    fn edges_copy() {
        let (kept, other) = ([0xA5; SHADOW], [0x5A; NVM]);
        for (held, code, shadow_after, nvm_after) in [
            (0x00, 0x40, kept, kept),
            (0x80, 0xC0, kept, kept),
            (0x00, 0x80, other, other),
            (0x40, 0xC0, other, other),
            (0x40, 0x40, kept, other),
            (0x80, 0x80, kept, other),
            (0xC0, 0x00, kept, other),
            (0x00, 0x3F, kept, other),
        ] {
            let (mut shadow, mut nvm) = (kept, other);
            let mut machine = Machine {
                held,
                ..Machine::power_up()
            };
            let answer = machine.write(&mut shadow, &mut nvm, 0x0A, code);
            assert_eq!((answer, machine.held), (Ok(()), code));
            assert_eq!((shadow, nvm), (shadow_after, nvm_after));
        }
    }

    /// "0A holds 00, write 83 twice: one recall"
    #[test]
    fn p12_one_recall() {
        let (mut shadow, mut nvm) = ([0x00; SHADOW], [0x11; NVM]);
        let mut machine = Machine::power_up();
        assert_eq!(machine.write(&mut shadow, &mut nvm, 0x0A, 0x83), Ok(()));
        assert_eq!(shadow, [0x11; SHADOW]);
        nvm = [0x22; NVM];
        assert_eq!(machine.write(&mut shadow, &mut nvm, 0x0A, 0x83), Ok(()));
        assert_eq!(shadow, [0x11; SHADOW]);
    }

    /// "3: the port is none of 04, 0A, 0C, 10C", "4: the code is not in that port's list"
    #[test]
    fn ports_and_codes() {
        for port in (0..=0x10F).chain([0x20C, 0xFFFF]) {
            let accepted = |code| written(Machine::power_up(), port, &[code]).is_ok();
            let codes: Vec<u8> = (0x00..=0xFF).filter(|code| accepted(*code)).collect();
            let listed: Vec<u8> = match port {
                0x04 => vec![0x00, 0x10, 0x20, 0x30],
                0x0A => (0x00..=0xBF).collect(),
                0x0C | 0x10C => (0x00..=0x0B).collect(),
                _ => Vec::new(),
            };
            assert_eq!(codes, listed, "{port:X}");
            let refused = if PORTS.contains(&port) { 4 } else { 3 };
            if port != 0x0A {
                assert_eq!(written(other(), port, &[0xFF]), Err(refused));
            }
        }
    }

    /// "6: bits 6 and 7 of 0A both rise in one write". "The lowest number wins." "all buffers and the machine stay"
    #[test]
    fn refused_writes_change_nothing() {
        let machine = Machine {
            held: 0x02,
            ..other()
        };
        for (shadow, nvm, port, code, number) in [
            (SHADOW - 1, NVM, 0x05, 0x00, 1),
            (SHADOW, NVM + 1, 0x0A, 0xC0, 1),
            (0, NVM, 0x0C, 0x08, 1),
            (SHADOW, NVM, 0x05, 0xFF, 3),
            (SHADOW, NVM, 0x04, 0x40, 4),
            (SHADOW, NVM, 0x0C, 0x0C, 4),
            (SHADOW, NVM, 0x10C, 0x0C, 4),
            (SHADOW, NVM, 0x0A, 0xC2, 6),
        ] {
            let (mut shadow, mut nvm) = (vec![0xA5; shadow], vec![0x5A; nvm]);
            let (before, mut after) = ((shadow.clone(), nvm.clone()), machine);
            assert_eq!(
                after.write(&mut shadow, &mut nvm, port, code),
                Err(number),
                "port {port:X}, code {code:X}"
            );
            assert_eq!(after, machine);
            assert_eq!((shadow, nvm), before);
        }
    }
}
