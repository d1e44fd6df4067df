//! A memory of a session, and what is done to it by hand.
use super::shown;
use crate::trial::strewn;

const NO_PLACE: &str = "expected a place, or places, that the memory has";
const NO_LENGTH: &str = "expected a length up to one more than the memory's own";

/// The bytes, one more than the memory's own length, and how many of them are lent.
pub struct Memory {
    pub bytes: Vec<u8>,
    pub lent: usize,
}

impl Memory {
    pub fn new(length: usize) -> Self {
        Self {
            bytes: vec![0; length + 1],
            lent: length,
        }
    }

    /// Done to the whole memory, whatever is lent of it. The numbers are those after the name.
    pub fn by_hand(&mut self, form: &str, numbers: &[u32]) -> String {
        let first = numbers[0] as usize;
        let word = match (form.split(' ').next(), numbers) {
            (Some("lend"), _) => self.lend(first),
            (Some("fill"), _) => {
                self.bytes.fill(first as u8);
                "filled"
            }
            (Some("put"), [_, byte]) => self.put(first, *byte as u8),
            (Some("bytes"), [_, many]) => {
                let end = first + *many as usize;
                let bytes = self.bytes.get(first..end);
                return bytes.map_or(NO_PLACE.to_string(), |bytes| shown::bytes("bytes", bytes));
            }
            (_, [seed, every, under]) => {
                self.strew(*seed, *every, *under);
                "strewn"
            }
            _ => NO_PLACE,
        };
        word.to_string()
    }

    fn lend(&mut self, length: usize) -> &'static str {
        if length > self.bytes.len() {
            return NO_LENGTH;
        }
        self.lent = length;
        "lent"
    }

    fn put(&mut self, place: usize, byte: u8) -> &'static str {
        match self.bytes.get_mut(place) {
            Some(old) => {
                *old = byte;
                "put"
            }
            None => NO_PLACE,
        }
    }

    fn strew(&mut self, mut seed: u32, every: u32, under: u32) {
        let whole = self.bytes.len();
        self.bytes = match every {
            0 => vec![0; whole],
            _ => strewn(&mut seed, whole, every, under.max(1)),
        };
    }
}
