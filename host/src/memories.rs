//! Document 01, "Lent memory": the memories as the two processors see them, and the shadow. Document 02, ticket 2: a
//! Z80 that is held sees none; ticket 3: nor does an 8088 in reset, which is the one that has the shadow.
use crate::machine::Machine;
use crate::Answer;

pub const SHARED: usize = 65536;
pub const PRIVATE: usize = 2048;
pub const SCREEN: usize = 4096;
pub const ATTRIBUTE: usize = 4096;
pub const NVM: usize = 256;
pub const SHADOW: usize = 256;

/// What the 8088 is lent.
#[derive(Clone)]
pub struct View8088 {
    pub shared: Vec<u8>,
    pub screen: Vec<u8>,
    pub attribute: Vec<u8>,
}

impl View8088 {
    pub fn new(shared: usize, screen: usize, attribute: usize) -> Self {
        Self {
            shared: vec![0; shared],
            screen: vec![0; screen],
            attribute: vec![0; attribute],
        }
    }

    /// The byte at an address, or the number of refusal.
    fn at(&mut self, machine: &Machine, address: u32) -> Answer<&mut u8> {
        let lengths = (self.shared.len(), self.screen.len(), self.attribute.len());
        if lengths != (SHARED, SCREEN, ATTRIBUTE) {
            return Err(1);
        }
        machine.runs_8088()?;
        match address {
            0x00000..=0x0FFFF => Ok(&mut self.shared[address as usize]),
            0xEE000..=0xEEFFF => Ok(&mut self.screen[(address & 0xFFF) as usize]),
            0xEF000..=0xEFFFF => Ok(&mut self.attribute[(address & 0xFFF) as usize]),
            _ => Err(2),
        }
    }

    pub fn read(&mut self, machine: &Machine, address: u32) -> Answer<u8> {
        self.at(machine, address).map(|byte| *byte)
    }

    pub fn store(&mut self, machine: &Machine, address: u32, byte: u8) -> Answer<()> {
        self.at(machine, address).map(|place| *place = byte)
    }
}

/// The byte that the Z80 sees at an address, if it runs.
fn z80_at<'a>(
    machine: &Machine,
    private: &'a mut [u8],
    shared: &'a mut [u8],
    address: u16,
) -> Answer<&'a mut u8> {
    if private.len() != PRIVATE || shared.len() != SHARED {
        return Err(1);
    }
    if !machine.z80_runs() {
        return Err(7);
    }
    let memory = if address >> 11 == 0 { private } else { shared };
    Ok(&mut memory[usize::from(address)])
}

pub fn z80_read(
    machine: &Machine,
    private: &mut [u8],
    shared: &mut [u8],
    address: u16,
) -> Answer<u8> {
    z80_at(machine, private, shared, address).map(|byte| *byte)
}

pub fn z80_store(
    machine: &Machine,
    private: &mut [u8],
    shared: &mut [u8],
    address: u16,
    byte: u8,
) -> Answer<()> {
    z80_at(machine, private, shared, address).map(|place| *place = byte)
}

pub fn shadow_read(machine: &Machine, shadow: &[u8], place: usize) -> Answer<u8> {
    if shadow.len() != SHADOW {
        return Err(1);
    }
    machine.runs_8088()?;
    shadow.get(place).map(|byte| byte & 15).ok_or(5)
}

pub fn shadow_write(machine: &Machine, shadow: &mut [u8], place: usize, value: u8) -> Answer<()> {
    if shadow.len() != SHADOW {
        return Err(1);
    }
    machine.runs_8088()?;
    shadow
        .get_mut(place)
        .map(|byte| *byte = value & 15)
        .ok_or(5)
}

#[cfg(test)]
mod tests {
    use super::*;

    /// The first place of each memory, and the last, hold bytes of their own.
    fn view() -> View8088 {
        let mut view = View8088::new(SHARED, SCREEN, ATTRIBUTE);
        (view.shared[0], view.shared[SHARED - 1]) = (0x11, 0x12);
        (view.screen[0], view.screen[SCREEN - 1]) = (0x21, 0x22);
        (view.attribute[0], view.attribute[ATTRIBUTE - 1]) = (0x31, 0x32);
        view
    }

    /// The machine at power-up but for the byte that port 0A holds.
    fn holding(held: u8) -> Machine {
        Machine {
            held,
            ..Machine::power_up()
        }
    }

    /// A machine whose Z80 runs, as its 8088 does.
    fn running() -> Machine {
        holding(0x01)
    }

    /// The same with its 8088 in reset.
    fn in_reset() -> Machine {
        Machine {
            watchdog: true,
            reset: true,
            ..running()
        }
    }

    /// Addresses at which the 8088 sees no memory.
    const NOWHERE: [u32; 5] = [0xEDFFF, 0xF0000, 0x10000, 0x1EE000, 0xFFFFFFFF];

    /// The places at which two memories differ.
    fn changed(before: &[u8], after: &[u8]) -> Vec<usize> {
        let places = 0..before.len();
        places
            .filter(|place| before[*place] != after[*place])
            .collect()
    }

    /// "The 8088 sees shared at 00000 to 0FFFF, screen at EE000 to EEFFF, attribute at EF000 to EFFFF". "8088 at EE000,
    /// EFFFF; EDFFF, F0000, 10000: screen 0, attribute 4095; refused 2"
    #[test]
    fn p8_what_the_8088_reads() {
        for (address, byte) in [
            (0x00000, 0x11),
            (0x0FFFF, 0x12),
            (0xEE000, 0x21),
            (0xEEFFF, 0x22),
            (0xEF000, 0x31),
            (0xEFFFF, 0x32),
        ] {
            assert_eq!(view().read(&running(), address), Ok(byte), "{address:X}");
        }
        for address in NOWHERE {
            assert_eq!(view().read(&running(), address), Err(2), "{address:X}");
        }
    }

    /// A store "changes the one byte".
    #[test]
    fn a_store_by_the_8088_changes_one_byte() {
        for (address, shared, screen, attribute) in [
            (0x07FFF, vec![0x7FFF], vec![], vec![]),
            (0xEE001, vec![], vec![1], vec![]),
            (0xEFFFE, vec![], vec![], vec![4094]),
        ] {
            let (before, mut after) = (view(), view());
            assert_eq!(after.store(&running(), address, 0x77), Ok(()));
            assert_eq!(after.read(&running(), address), Ok(0x77));
            assert_eq!(changed(&before.shared, &after.shared), shared);
            assert_eq!(changed(&before.screen, &after.screen), screen);
            assert_eq!(changed(&before.attribute, &after.attribute), attribute);
        }
    }

    /// "1: a lent buffer's length differs from the list". "The lowest number wins." 02, ticket 3: "8, the 8088 is in
    /// reset, after 1".
    #[test]
    fn the_8088s_lengths() {
        for (shared, screen, attribute) in [
            (SHARED - 1, SCREEN, ATTRIBUTE),
            (SHARED, SCREEN + 1, ATTRIBUTE),
            (SHARED, SCREEN, 0),
        ] {
            for address in [0x00000, 0xEE000, 0xF0000] {
                let mut view = View8088::new(shared, screen, attribute);
                for machine in [running(), in_reset()] {
                    assert_eq!(view.read(&machine, address), Err(1));
                    assert_eq!(view.store(&machine, address, 0x77), Err(1));
                }
                assert!(view.shared.iter().all(|byte| *byte == 0));
                assert!(view.screen.iter().all(|byte| *byte == 0));
            }
        }
    }

    /// 02, ticket 3: "During reset, 8088 accesses, those to the shadow too, and port writes are refused. Refusals: 8,
    /// the 8088 is in reset, after 1, ahead of 2 to 6." Before and after it they are not.
    #[test]
    fn an_8088_in_reset_does_not_touch_memory() {
        let seen = [0x00000, 0x007FF, 0x00800, 0x0FFFF, 0xEE000, 0xEFFFF];
        let (before, mut after, mut shadow) = (view(), view(), [0xF5; SHADOW]);
        for address in seen.into_iter().chain(NOWHERE) {
            assert_eq!(after.read(&in_reset(), address), Err(8), "{address:X}");
            assert_eq!(after.store(&in_reset(), address, 0x77), Err(8));
        }
        for place in [0, 255, 256, usize::MAX] {
            assert_eq!(shadow_read(&in_reset(), &shadow, place), Err(8));
            assert_eq!(shadow_write(&in_reset(), &mut shadow, place, 0x7E), Err(8));
        }
        assert_eq!(changed(&before.shared, &after.shared), []);
        assert_eq!(changed(&before.screen, &after.screen), []);
        assert_eq!(changed(&before.attribute, &after.attribute), []);
        assert_eq!(shadow, [0xF5; SHADOW]);
        let over = Machine {
            reset: false,
            ..in_reset()
        };
        assert_eq!(after.read(&over, 0xEE000), Ok(0x21));
        assert_eq!(shadow_read(&over, &shadow, 255), Ok(0x05));
    }

    /// 02, ticket 3, resets the 8088: the Z80 goes on by its own bit.
    #[test]
    fn the_z80_goes_on_in_the_8088s_reset() {
        let (mut private, mut shared) = (vec![0x11; PRIVATE], vec![0x22; SHARED]);
        let held = Machine {
            held: 0x02,
            ..in_reset()
        };
        for address in [0x07FF, 0x0800] {
            let stored = z80_store(&in_reset(), &mut private, &mut shared, address, 0x77);
            let read = z80_read(&in_reset(), &mut private, &mut shared, address);
            assert_eq!((stored, read), (Ok(()), Ok(0x77)));
            let stored = z80_store(&held, &mut private, &mut shared, address, 0x78);
            let read = z80_read(&held, &mut private, &mut shared, address);
            assert_eq!((stored, read), (Err(7), Err(7)));
        }
    }

    /// "Z80 store at 07FF; at 0800: private 2047; shared 2048". "A Z80 store changes that one byte and no other." 02,
    /// ticket 2: "P7 has it set", bit 0 of port 0A.
    #[test]
    fn p7_stores_by_the_z80() {
        for (address, in_private, in_shared) in [
            (0x0000, vec![0], vec![]),
            (0x07FF, vec![2047], vec![]),
            (0x0800, vec![], vec![2048]),
            (0xFFFF, vec![], vec![65535]),
        ] {
            let (mut private, mut shared) = (vec![0; PRIVATE], vec![0; SHARED]);
            let stored = z80_store(&running(), &mut private, &mut shared, address, 0x77);
            assert_eq!(stored, Ok(()));
            assert_eq!(changed(&[0; PRIVATE], &private), in_private);
            assert_eq!(changed(&[0; SHARED], &shared), in_shared);
            let read = z80_read(&running(), &mut private, &mut shared, address);
            assert_eq!(read, Ok(0x77));
        }
    }

    /// "two runs that agree on those give the Z80 the same answers, even if the 8088's first 2 KB differ"
    #[test]
    fn the_z80_does_not_see_the_8088s_first_2_kb() {
        let mut private = vec![0x11; PRIVATE];
        let (mut one, mut other) = (vec![0x22; SHARED], vec![0x22; SHARED]);
        other[..0x800].fill(0x33);
        for address in 0..=0xFFFF {
            let byte = z80_read(&running(), &mut private, &mut one, address);
            assert_eq!(byte, Ok(if address < 0x800 { 0x11 } else { 0x22 }));
            let again = z80_read(&running(), &mut private, &mut other, address);
            assert_eq!(again, byte);
        }
    }

    /// 02, ticket 2: "The rule about two runs now lists this bit": runs that agree on it and on the Z80's bytes give
    /// the same answers, whatever else the machine is. Runs that differ in it do not.
    #[test]
    fn two_runs_agree_on_the_bit() {
        let (mut private, mut shared) = (vec![0x11; PRIVATE], vec![0x22; SHARED]);
        for held in 0x00..=0xFF {
            let other = Machine {
                columns: 132,
                latch: held,
                watchdog: true,
                ..holding(held ^ 0xFE)
            };
            for address in [0x0000, 0x07FF, 0x0800, 0xFFFF] {
                let one = z80_read(&holding(held), &mut private, &mut shared, address);
                let same = z80_read(&other, &mut private, &mut shared, address);
                let differs = z80_read(&holding(held ^ 1), &mut private, &mut shared, address);
                assert_eq!(one, same);
                assert_ne!(one, differs);
            }
        }
    }

    /// 02, ticket 2: "Refusals: 7, the Z80 is held, for both Z80 access calls". "So the Z80 runs only while the bit is
    /// 1": of the 256 bytes that port 0A may hold, bit 0 decides. P7's two addresses, and those at the ends.
    #[test]
    fn a_held_z80_does_not_touch_memory() {
        let (mut private, mut shared) = (vec![0x11; PRIVATE], vec![0x22; SHARED]);
        for held in 0x00..=0xFF {
            for address in [0x0000, 0x07FF, 0x0800, 0xFFFF] {
                let machine = holding(held);
                let seen = if address < 0x800 { 0x11 } else { 0x22 };
                let (read, stored) = match held % 2 {
                    0 => (Err(7), Err(7)),
                    _ => (Ok(seen), Ok(())),
                };
                let answer = z80_read(&machine, &mut private, &mut shared, address);
                assert_eq!(answer, read, "{held:02X}");
                let answer = z80_store(&machine, &mut private, &mut shared, address, 0x77);
                assert_eq!(answer, stored, "{held:02X}");
                if stored.is_ok() {
                    let back = z80_store(&machine, &mut private, &mut shared, address, seen);
                    assert_eq!(back, Ok(()));
                }
                assert_eq!(private, [0x11; PRIVATE]);
                assert_eq!(shared, [0x22; SHARED]);
            }
        }
    }

    /// 02, ticket 2: "reset is active at power-up"
    #[test]
    fn the_z80_is_held_at_power_up() {
        let machine = Machine::power_up();
        let (mut private, mut shared) = (vec![0x11; PRIVATE], vec![0x22; SHARED]);
        for address in [0x07FF, 0x0800] {
            let read = z80_read(&machine, &mut private, &mut shared, address);
            let stored = z80_store(&machine, &mut private, &mut shared, address, 0x77);
            assert_eq!((read, stored), (Err(7), Err(7)));
        }
        assert_eq!(private, [0x11; PRIVATE]);
        assert_eq!(shared, [0x22; SHARED]);
    }

    /// "A Z80 address has sixteen bits, so none is refused", but for a length. 02, ticket 2: "7, the Z80 is held, for
    /// both Z80 access calls, after 1": a wrong length is refused by 1, held or not.
    #[test]
    fn the_z80s_lengths() {
        for (private, shared) in [(PRIVATE - 1, SHARED), (PRIVATE, SHARED + 1), (0, 0)] {
            let (mut private, mut shared) = (vec![0; private], vec![0; shared]);
            for machine in [running(), Machine::power_up()] {
                let read = z80_read(&machine, &mut private, &mut shared, 0x0800);
                let stored = z80_store(&machine, &mut private, &mut shared, 0, 0x77);
                assert_eq!((read, stored), (Err(1), Err(1)));
            }
            assert!(private.iter().chain(&shared).all(|byte| *byte == 0));
        }
    }

    /// "a read gives the byte modulo 16, a write stores the value modulo 16"
    #[test]
    fn shadow_modulo_16() {
        let (machine, mut shadow) = (Machine::power_up(), [0xF5; SHADOW]);
        assert_eq!(shadow_read(&machine, &shadow, 0), Ok(0x05));
        assert_eq!(shadow_read(&machine, &shadow, 255), Ok(0x05));
        assert_eq!(shadow_write(&machine, &mut shadow, 255, 0xFE), Ok(()));
        assert_eq!(shadow[255], 0x0E);
        assert_eq!(shadow[..255], [0xF5; 255]);
    }

    /// "5: a shadow place over 255". "The lowest number wins." 02, ticket 3: "8, the 8088 is in reset, after 1, ahead
    /// of 2 to 6".
    #[test]
    fn shadow_refusals() {
        for (length, place, number, in_reset_by) in [
            (SHADOW, 256, 5, 8),
            (SHADOW, usize::MAX, 5, 8),
            (SHADOW - 1, 0, 1, 1),
            (SHADOW + 1, 256, 1, 1),
        ] {
            for (machine, number) in [(running(), number), (in_reset(), in_reset_by)] {
                let mut shadow = vec![0xA5; length];
                assert_eq!(shadow_read(&machine, &shadow, place), Err(number));
                let written = shadow_write(&machine, &mut shadow, place, 0x7E);
                assert_eq!(written, Err(number));
                assert_eq!(shadow, vec![0xA5; length]);
            }
        }
    }
}
