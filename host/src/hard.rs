//! Memories that are hard to walk, and programs that are given them.
use crate::chain::{capacity, read_by_rows, PLACES, ROWS};
use std::io::{Read, Write};
use std::process::{Command, Stdio};

/// Numbers to choose by (xorshift).
pub struct Chance(pub u64);

impl Chance {
    pub fn below(&mut self, n: usize) -> usize {
        self.0 ^= self.0 << 13;
        self.0 ^= self.0 >> 7;
        self.0 ^= self.0 << 17;
        (self.0 >> 16) as usize % n
    }

    pub fn byte(&mut self) -> u8 {
        self.below(256) as u8
    }

    pub fn of<T: Copy>(&mut self, choices: &[T]) -> T {
        choices[self.below(choices.len())]
    }
}

/// Bytes of which one in `every` is FF and the others are under `under`.
fn strewn(chance: &mut Chance, every: usize, under: usize) -> Vec<u8> {
    (0..PLACES)
        .map(|_| {
            if chance.below(every) == 0 {
                0xFF
            } else {
                chance.below(under) as u8
            }
        })
        .collect()
}

/// A chain laid through memory: each row ends a chosen number of bytes after its start, most often at
/// its capacity or beside it, and goes on at a chosen place, with any bits in the link's top four. Now
/// and then the chain goes straight on, with no row torn.
fn laid(chance: &mut Chance, screen: &mut [u8], attribute: &mut [u8]) {
    let (mut start, mut kind) = (0, 3);
    let straight = chance.below(4) == 0;
    for _ in 0..ROWS + 2 {
        let capacity = capacity(80, kind);
        let cells = match chance.below(if straight { 7 } else { 8 }) {
            0 => 0,
            1 => chance.below(capacity),
            2 | 3 => capacity - 1,
            4..=6 => capacity,
            _ => capacity + chance.below(3),
        };
        for place in start..start + cells {
            if screen[place % PLACES] == 0xFF {
                screen[place % PLACES] = chance.below(255) as u8;
            }
        }
        let end = start + cells;
        let next = match chance.below(6) {
            _ if straight => end + 3,
            0 => start,
            1 => start + chance.below(cells + 1),
            2 => PLACES - 1 - chance.below(100),
            3 => end + 3,
            _ => chance.below(PLACES),
        } % PLACES;
        kind = chance.below(8) as u8;
        screen[end % PLACES] = 0xFF;
        screen[(end + 1) % PLACES] = next as u8;
        screen[(end + 2) % PLACES] = (next >> 8) as u8 | (chance.byte() & 0xF0);
        attribute[(end + 1) % PLACES] = kind | (chance.byte() & 0xF8);
        start = next;
    }
}

/// Chooses which links are wild: those that are, none, or that of one row, most often the last, and none before it. An
/// FF stays, since another row may end there.
pub fn choose_wild(chance: &mut Chance, screen: &mut [u8], attribute: &[u8], columns: usize) {
    let first = match chance.below(8) {
        0 | 1 => return,
        2 | 3 => ROWS,
        4..=6 => ROWS - 1,
        _ => chance.below(ROWS),
    };
    let rows = read_by_rows(screen, attribute, columns).expect("the right lengths");
    for (row, places) in rows.iter().enumerate() {
        // The last three that a row reads, unless it is torn or dark: FF and the link.
        let high = match places.screen[..] {
            [.., end, _, high] if screen[end] == 0xFF && screen[high] != 0xFF => high,
            _ => continue,
        };
        if row < first {
            screen[high] &= 0x0F;
        } else if row == first {
            let any = chance.byte() | 0x10;
            screen[high] |= chance.of(&[0x10, 0x20, 0x40, 0x80, any & 0xF0]);
        }
    }
}

/// A screen memory and then an attribute memory.
pub fn memories(chance: &mut Chance) -> Vec<u8> {
    let every = chance.of(&[1, 2, 3, 5, 10, 20, 40, 41, 42, 79, 80, 81, 82, 160, 5000]);
    let under = chance.of(&[1, 2, 4, 16, 17, 128, 255, 256]);
    let mut screen = strewn(chance, every, under);
    let mut attribute = strewn(chance, 30, 256);
    if chance.below(2) == 0 {
        laid(chance, &mut screen, &mut attribute);
    }
    choose_wild(chance, &mut screen, &attribute, 80);
    [screen, attribute].concat()
}

/// What a program writes to standard output and to standard error, given its input in pieces.
pub fn written(
    program: &str,
    words: &[&str],
    input: &[u8],
    chance: &mut Chance,
) -> std::io::Result<(Vec<u8>, String)> {
    // A program may be a command with words of its own.
    let mut command = program.split_whitespace();
    let mut child = Command::new(command.next().unwrap_or_default())
        .args(command)
        .args(words)
        .stdin(Stdio::piped())
        .stdout(Stdio::piped())
        .stderr(Stdio::piped())
        .spawn()?;
    let mut to = child.stdin.take().unwrap();
    let mut left = input;
    while !left.is_empty() {
        let piece = chance
            .of(&[1, 7, 100, 4095, 4096, 4097, 100_000])
            .min(left.len());
        if to.write_all(&left[..piece]).is_err() {
            break; // it has seen enough of a wrong input
        }
        left = &left[piece..];
    }
    drop(to);
    let (mut out, mut told) = (Vec::new(), String::new());
    child.stdout.take().unwrap().read_to_end(&mut out)?;
    child.stderr.take().unwrap().read_to_string(&mut told)?;
    child.wait()?;
    Ok((out, told))
}

#[cfg(test)]
mod tests {
    use super::*;
    use crate::chain::draw;

    /// Screens whose first wild link is row 0's, that of a row between, or the last row's, and screens without one are
    /// all chosen often enough to be tried.
    #[test]
    fn wild_links_are_chosen() {
        let mut chance = Chance(0x9E3779B97F4A7C15);
        let mut first = [0; ROWS + 1];
        for _ in 0..2000 {
            let memories = memories(&mut chance);
            let (screen, attribute) = memories.split_at(PLACES);
            let drawn = draw(screen, attribute, 80).ok().unwrap();
            first[drawn.wild.unwrap_or(ROWS)] += 1;
        }
        let between: usize = first[1..ROWS - 1].iter().sum();
        let (row_0, last, none) = (first[0], first[ROWS - 1], first[ROWS]);
        assert!(
            row_0 > 100 && between > 100 && none > 100 && last > 20,
            "{first:?}"
        );
    }
}
