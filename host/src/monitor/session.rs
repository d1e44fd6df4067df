//! The memories, the machine and the viewers that a session of the monitor keeps, and what each line does to them.
use super::lines::{understood, Line, NAMES};
use super::memory::Memory;
use super::shown;
use crate::chain::{self, PICTURE};
use crate::dots;
use crate::index::{self, INDEX};
use crate::machine::Machine;
use crate::memories::{self, View8088};
use crate::mending;
use crate::screen;
use crate::viewers::Viewers;
use crate::why;
use crate::Answer;

const SHARED: usize = 0;
const PRIVATE: usize = 1;
const SCREEN: usize = 2;
const ATTRIBUTE: usize = 3;
const GLYPHS: usize = 4;
const NVM: usize = 5;
const SHADOW: usize = 6;
const PICTURES: usize = 7;
const LINE: usize = 8;
const LINES: usize = 9;
const INDEXES: usize = 10;

pub struct Session {
    machine: Machine,
    viewers: Viewers,
    memories: Vec<Memory>,
}

impl Session {
    pub fn power_up() -> Self {
        Self {
            machine: Machine::power_up(),
            viewers: Viewers::start(),
            memories: NAMES
                .iter()
                .map(|(_, length)| Memory::new(*length))
                .collect(),
        }
    }

    /// The column setting, 80 or 132.
    pub fn columns(&self) -> usize {
        self.machine.columns.into()
    }

    /// The byte that port 0A holds.
    pub fn held(&self) -> u8 {
        self.machine.held
    }

    /// The kept picture.
    pub fn picture(&self) -> &[u8] {
        &self.memories[PICTURES].bytes[..PICTURE]
    }

    /// The answer to a line, each of its own lines with an end.
    pub fn answer(&mut self, line: &[u8]) -> Vec<u8> {
        let lines = match understood(line) {
            Line::Blank => return Vec::new(),
            Line::Remark(remark) => return [remark, b"\n"].concat(),
            Line::TooLong => vec!["expected at most 200 bytes in a line".to_string()],
            Line::Bad(forms) => shown::expected(&forms),
            Line::Call(form, numbers) => self
                .told(form, &numbers)
                .unwrap_or_else(|number| vec![shown::refused(form, number)]),
        };
        let ended = lines.into_iter().map(|line| line + "\n");
        ended.collect::<String>().into_bytes()
    }

    fn told(&mut self, form: &str, numbers: &[u32]) -> Answer<Vec<String>> {
        match form {
            "rows" => Ok(shown::rows(self.picture())),
            "text" => Ok(shown::text(self.picture(), self.columns())),
            "list DDDDD" => Ok(self.listed(numbers[0] as usize)),
            "help" => Ok(shown::help()),
            _ => match numbers {
                [] => self.without_numbers(form),
                [name, ..] if form.contains("NAME") => {
                    let memory = &mut self.memories[*name as usize];
                    Ok(memory.by_hand(form, &numbers[1..]))
                }
                _ => self.call(form, numbers),
            }
            .map(|line| vec![line]),
        }
    }

    /// The row lister's text of the two memories, with so many bytes after them.
    fn listed(&self, beyond: usize) -> Vec<String> {
        let memories = [self.lent(SCREEN), self.lent(ATTRIBUTE)];
        let whole = memories.iter().all(|memory| memory.len() == chain::PLACES) && beyond == 0;
        let input = if whole { memories.concat() } else { Vec::new() };
        chain::listing(&input).lines().map(str::to_string).collect()
    }

    fn without_numbers(&mut self, form: &str) -> Answer<String> {
        let word = match form {
            "draw" => return self.draw(),
            "index" => return self.index(),
            "lines" => return self.lines(),
            "viewers" => return Ok(shown::waiting("viewers", &self.viewers.numbers())),
            "sums" => {
                let memories = self.memories.iter();
                return Ok(shown::sums(memories.map(|memory| &memory.bytes[..])));
            }
            "dots" => return Ok(format!("dots of a line: {}", self.dots())),
            "scroll" => return Ok(format!("scroll latch: {:02X}", self.machine.latch % 16)),
            "tick" => {
                self.machine.interrupt = true;
                "ticked"
            }
            "power" => {
                self.machine = Machine::power_up();
                self.viewers = Viewers::start();
                for (memory, (_, length)) in self.memories.iter_mut().zip(NAMES) {
                    memory.lent = length;
                }
                "power-up"
            }
            _ => "machine",
        };
        Ok(format!("{word}: {}", shown::machine(&self.machine)))
    }

    fn call(&mut self, form: &str, numbers: &[u32]) -> Answer<String> {
        let first = numbers[0];
        let place = first as usize;
        let address = first as u16;
        let second = numbers.get(1).map_or(0, |number| *number as usize);
        let byte = second as u8;
        let stored = |_| "stored".to_string();
        let reads = |byte| shown::bytes("reads", &[byte]);
        match form.split(" H").next().unwrap_or(form) {
            "store" => self.store(first, byte),
            "index store" => self.store_with_index(first, byte),
            "blind" => self
                .with_view(|view, _, machine| view.store(machine, first, byte))
                .map(stored),
            "read" => self
                .with_view(|view, _, machine| view.read(machine, first))
                .map(reads),
            "z80 store" => {
                let (mut private, mut shared) = (self.taken(PRIVATE), self.taken(SHARED));
                let machine = &self.machine;
                let answer = memories::z80_store(machine, &mut private, &mut shared, address, byte);
                self.put_back(PRIVATE, &private);
                self.put_back(SHARED, &shared);
                answer.map(stored)
            }
            "z80 read" => {
                let (mut private, mut shared) = (self.taken(PRIVATE), self.taken(SHARED));
                let machine = &self.machine;
                memories::z80_read(machine, &mut private, &mut shared, address).map(reads)
            }
            "port" => self.port(address, byte),
            "watch DDDDD" => {
                (0..first).for_each(|_| self.machine.watchdog_tick());
                Ok(format!("watched: {}", shown::machine(&self.machine)))
            }
            "shadow write DDDDD" => {
                let mut shadow = self.taken(SHADOW);
                let answer = memories::shadow_write(&self.machine, &mut shadow, place, byte);
                self.put_back(SHADOW, &shadow);
                answer.map(|_| "written".to_string())
            }
            "shadow read DDDDD" => {
                memories::shadow_read(&self.machine, self.lent(SHADOW), place).map(reads)
            }
            "ask DDDDD" => {
                let marks = self.viewers.ask(place)?;
                Ok(shown::marks("asked", marks))
            }
            "wait DDDDD" => Ok(self.wait(place, numbers[1])),
            "why DDDDD DDDDD" => self.why(place, second),
            "line DDDDD DDDDD" => self.line(place, second),
            "marked" => Ok(shown::marked(first, second)),
            "latch" => {
                self.machine.latch = first as u8;
                Ok(format!("latched: {}", shown::machine(&self.machine)))
            }
            "count DDD D" => {
                self.machine.count = first as u8;
                self.machine.reset = second != 0;
                Ok(format!("counted: {}", shown::machine(&self.machine)))
            }
            _ => {
                let part = dots::part(self.lent(GLYPHS), first as u8)?;
                Ok(shown::bytes("part", part))
            }
        }
    }

    fn draw(&mut self) -> Answer<String> {
        let (screen, attribute) = (self.lent(SCREEN), self.lent(ATTRIBUTE));
        let drawn = chain::draw(screen, attribute, self.columns())?;
        if self.lent(PICTURES).len() != PICTURE {
            return Err(1);
        }
        self.put_back(PICTURES, &drawn.picture);
        self.viewers.drawn();
        Ok(shown::drawn(&drawn))
    }

    fn store(&mut self, address: u32, byte: u8) -> Answer<String> {
        let marks = self.with_view(|view, picture, machine| {
            mending::store(view, picture, machine, address, byte)
        })?;
        Ok(self.served(marks))
    }

    fn store_with_index(&mut self, address: u32, byte: u8) -> Answer<String> {
        let mut kept = self.taken(INDEXES);
        let marks = self.with_view(|view, picture, machine| {
            index::store(view, picture, &mut kept, machine, address, byte)
        })?;
        self.put_back(INDEXES, &kept);
        Ok(self.served(marks))
    }

    /// The marks of a store wait for each viewer.
    fn served(&mut self, marks: u32) -> String {
        self.viewers.stored(marks);
        shown::marks("stored", marks)
    }

    fn index(&mut self) -> Answer<String> {
        let (screen, attribute) = (self.lent(SCREEN), self.lent(ATTRIBUTE));
        let fresh = index::index(screen, attribute, self.columns())?;
        if self.lent(INDEXES).len() != INDEX {
            return Err(1);
        }
        self.put_back(INDEXES, &fresh);
        Ok("indexed".to_string())
    }

    /// Any number in place of what waits for a viewer, as a caller can put it.
    fn wait(&mut self, viewer: usize, marks: u32) -> String {
        let mut numbers = self.viewers.numbers();
        match numbers.get_mut(viewer) {
            Some(waiting) => *waiting = marks,
            None => return "expected a viewer of 0 to 7".to_string(),
        }
        self.viewers = Viewers::given(numbers);
        shown::waiting("waits", &numbers)
    }

    fn port(&mut self, port: u16, code: u8) -> Answer<String> {
        let (mut shadow, mut nvm) = (self.taken(SHADOW), self.taken(NVM));
        self.machine.write(&mut shadow, &mut nvm, port, code)?;
        self.put_back(SHADOW, &shadow);
        self.put_back(NVM, &nvm);
        Ok(format!("written: {}", shown::machine(&self.machine)))
    }

    fn why(&self, row: usize, column: usize) -> Answer<String> {
        let (screen, attribute) = (self.lent(SCREEN), self.lent(ATTRIBUTE));
        let why = why::explain(screen, attribute, self.columns(), row, column)?;
        Ok(shown::why(&why))
    }

    fn line(&mut self, row: usize, scan: usize) -> Answer<String> {
        let mut line = self.taken(LINE);
        let (picture, glyphs) = (self.lent(PICTURES), self.lent(GLYPHS));
        dots::scan_line(&self.machine, picture, glyphs, row, scan, &mut line)?;
        self.put_back(LINE, &line);
        Ok(shown::dots(&line[..self.dots()]))
    }

    fn lines(&mut self) -> Answer<String> {
        let mut list = self.taken(LINES);
        screen::list_lines(&self.machine, self.lent(PICTURES), &mut list)?;
        self.put_back(LINES, &list);
        Ok(shown::lines(&list))
    }

    /// The dots of a line.
    fn dots(&self) -> usize {
        match self.columns() {
            80 => 800,
            _ => dots::LINE,
        }
    }

    fn lent(&self, name: usize) -> &[u8] {
        let memory = &self.memories[name];
        &memory.bytes[..memory.lent]
    }

    fn taken(&self, name: usize) -> Vec<u8> {
        self.lent(name).to_vec()
    }

    fn put_back(&mut self, name: usize, bytes: &[u8]) {
        self.memories[name].bytes[..bytes.len()].copy_from_slice(bytes);
    }

    /// A call of the 8088, on what is lent to it.
    fn with_view<T>(
        &mut self,
        call: impl FnOnce(&mut View8088, &mut [u8], &Machine) -> Answer<T>,
    ) -> Answer<T> {
        let mut view = View8088 {
            shared: self.taken(SHARED),
            screen: self.taken(SCREEN),
            attribute: self.taken(ATTRIBUTE),
        };
        let mut picture = self.taken(PICTURES);
        let answer = call(&mut view, &mut picture, &self.machine);
        self.put_back(SHARED, &view.shared);
        self.put_back(SCREEN, &view.screen);
        self.put_back(ATTRIBUTE, &view.attribute);
        self.put_back(PICTURES, &picture);
        answer
    }
}
