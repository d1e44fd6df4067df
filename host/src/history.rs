//! Document 02, ticket 3, of whole runs: when the 8088 is in reset by the ticks at which the watchdog was enabled and
//! acknowledged. Nothing is counted here: a tick changes only how many there have been.
use crate::machine::Machine;

/// "Take 128 ticks for both": from an acknowledgement to the reset, and from its beginning to its end.
const SPAN: u64 = 128;

/// What has been made and accepted so far, as far as it matters.
#[derive(Clone, Debug, PartialEq, Eq)]
pub struct History {
    /// The ticks made.
    ticks: u64,
    /// While the watchdog is enabled: the ticks made before the last code 09, or enabling, whichever is later.
    acknowledged: Option<u64>,
}

impl History {
    /// A history that leads to a machine: it was never enabled, or enabled some ticks ago. No run of calls leads to a
    /// machine that has none.
    pub fn of(machine: &Machine) -> Option<Self> {
        let count = u64::from(machine.count);
        let enabled = machine.watchdog && count < SPAN;
        let never = !machine.watchdog && !machine.reset && count == 0;
        let ticks = if machine.reset { SPAN + count } else { count };
        (enabled || never).then_some(Self {
            ticks,
            acknowledged: enabled.then_some(0),
        })
    }

    pub fn tick(&mut self) {
        self.ticks += 1;
    }

    /// A code was written to a port, and accepted.
    pub fn written(&mut self, port: u16, code: u8) {
        match port {
            0x0C if self.acknowledged.is_none() || code == 0x09 => {
                self.acknowledged = Some(self.ticks)
            }
            0x10C => self.acknowledged = None,
            _ => {}
        }
    }

    /// "reset begins at the 128th tick after the last code 09, enabling or end of reset. .. Reset ends at the 128th
    /// tick after it began": so it begins at the 128th tick, ends at the 256th, begins again at the 384th, and so on.
    pub fn in_reset(&self) -> bool {
        self.acknowledged
            .is_some_and(|at| (self.ticks - at) / SPAN % 2 == 1)
    }

    /// The ticks since the last code 09, enabling, or beginning or end of a reset. "The count .. stays 0 while
    /// disabled."
    pub fn count(&self) -> u8 {
        let since = self.acknowledged.map_or(0, |at| (self.ticks - at) % SPAN);
        since as u8
    }
}

#[cfg(test)]
mod tests {
    use super::*;
    use crate::hard::Chance;
    use crate::memories::{NVM, SHADOW};

    /// What is made in a run: a tick, or an accepted write to a port.
    #[derive(Clone, Copy, PartialEq, Eq)]
    enum Made {
        Tick,
        Written(u16, u8),
    }

    /// The ticks of a run, by their numbers from 1 on, at which a reset begins and at which one ends, by 02's words
    /// alone: each is looked for in the list of all that was made.
    fn resets(made: &[Made]) -> (Vec<u64>, Vec<u64>) {
        let (mut begun, mut ended) = (Vec::new(), Vec::new());
        for (at, _) in made.iter().enumerate().filter(|(_, m)| **m == Made::Tick) {
            let ticks = |made: &[Made]| made.iter().filter(|m| **m == Made::Tick).count() as u64;
            let now = ticks(&made[..=at]);
            if begun.len() > ended.len() {
                // "Reset ends at the 128th tick after it began"
                if begun.last() == Some(&(now - 128)) {
                    ended.push(now);
                }
                continue;
            }
            let to = |place: usize| match made[place] {
                Made::Written(port @ (0x0C | 0x10C), _) => Some(port),
                _ => None,
            };
            let enabled = |before: usize| (0..before).rev().find_map(to) == Some(0x0C);
            let starts = (0..at).filter(|place| match made[*place] {
                Made::Written(0x0C, 0x09) => true,
                Made::Written(0x0C, _) => !enabled(*place),
                _ => false,
            });
            // "the last code 09, enabling or end of reset"
            let last = starts.last().map(|place| ticks(&made[..place]));
            let last = last.max(ended.last().copied());
            if enabled(at) && last == now.checked_sub(128) {
                begun.push(now);
            }
        }
        (begun, ended)
    }

    /// Ticks, and codes now and then, so that some resets begin.
    fn run(chance: &mut Chance, every: usize, codes: &[(u16, u8)]) -> Vec<Made> {
        let made = |chance: &mut Chance| match chance.below(every) {
            0 => {
                let (port, code) = chance.of(codes);
                Made::Written(port, code)
            }
            _ => Made::Tick,
        };
        (0..1500).map(|_| made(chance)).collect()
    }

    /// The history has a reset exactly from each tick at which one begins to the one at which it ends, by the words of
    /// 02, and in it no write is accepted.
    #[test]
    fn the_history_is_that_of_the_words() {
        let mut chance = Chance(0x9E3779B97F4A7C15);
        let (mut begins, mut ends) = (0, 0);
        for (every, codes) in [
            (1500, &[(0x0C, 0x09)][..]),
            (300, &[(0x0C, 0x01)]),
            (130, &[(0x0C, 0x09), (0x0C, 0x08), (0x04, 0x10)]),
            (200, &[(0x0C, 0x09), (0x0C, 0x00), (0x10C, 0x09)]),
            (
                100,
                &[(0x0C, 0x0A), (0x0C, 0x0B), (0x10C, 0x00), (0x0A, 0x09)],
            ),
        ] {
            for _ in 0..4 {
                let mut history = History::of(&Machine::power_up()).unwrap();
                let mut made = vec![Made::Written(0x0C, 0x00)];
                history.written(0x0C, 0x00);
                for next in run(&mut chance, every, codes) {
                    match next {
                        Made::Tick => history.tick(),
                        Made::Written(..) if history.in_reset() => continue,
                        Made::Written(port, code) => history.written(port, code),
                    }
                    made.push(next);
                }
                let (begun, ended) = resets(&made);
                (begins, ends) = (begins + begun.len(), ends + ended.len());
                let mut again = History::of(&Machine::power_up()).unwrap();
                for next in made {
                    match next {
                        Made::Tick => again.tick(),
                        Made::Written(port, code) => again.written(port, code),
                    }
                    let up_to = |at: &&u64| **at <= again.ticks;
                    let begun = begun.iter().filter(up_to).count();
                    let ended = ended.iter().filter(up_to).count();
                    assert_eq!(again.in_reset(), begun > ended);
                }
            }
        }
        assert!(begins > 40 && ends > 40, "{begins} {ends}");
    }

    /// A history of a machine leads to it, and then both go the same way.
    #[test]
    fn a_history_leads_to_its_machine() {
        for count in 0..=255 {
            for (watchdog, reset) in [(false, false), (true, false), (false, true), (true, true)] {
                let mut machine = Machine {
                    watchdog,
                    count,
                    reset,
                    ..Machine::power_up()
                };
                let no_run = if watchdog {
                    count > 127
                } else {
                    reset || count > 0
                };
                let Some(mut history) = History::of(&machine) else {
                    assert!(no_run);
                    continue;
                };
                assert!(!no_run);
                for tick in 0..600 {
                    let wanted = (history.in_reset(), history.count());
                    assert_eq!((machine.reset, machine.count), wanted);
                    machine.watchdog_tick();
                    history.tick();
                    if tick % 97 == 0 && !machine.reset {
                        let answer = machine.write(&mut [0; SHADOW], &mut [0; NVM], 0x0C, 0x09);
                        assert_eq!(answer, Ok(()));
                        history.written(0x0C, 0x09);
                    }
                }
            }
        }
    }
}
