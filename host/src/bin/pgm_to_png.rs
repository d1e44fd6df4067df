//! Reads the tube's picture, a PGM of four greys, and writes it as a PNG of two bits for a dot. With files it puts
//! their pictures side by side, the left 40 columns of each.
//! usage: pgm_to_png < PGM > PNG
//!        pgm_to_png PGM.. > PNG
use std::collections::HashMap;
use std::io::{Read, Write};

/// What is shown of a picture that stands beside others, and the white gap between two, in dots.
const CUT: usize = 400;
const GAP: usize = 16;
const WHITE: u8 = 3;

/// A PGM's width and its dots, 0 to 3.
struct Picture {
    width: usize,
    dots: Vec<u8>,
}

/// The picture of a PGM as the program `tube` writes it.
fn picture(pgm: &[u8]) -> Option<Picture> {
    let mut parts = pgm.splitn(4, |byte| *byte == b'\n');
    let mut part = || parts.next();
    let (magic, size, greatest, dots) = (part()?, part()?, part()?, part()?);
    let (width, height) = std::str::from_utf8(size).ok()?.split_once(' ')?;
    let (width, height): (usize, usize) = (width.parse().ok()?, height.parse().ok()?);
    let whole = width > 0 && height > 0 && width.checked_mul(height)? == dots.len();
    let right = magic == b"P5" && greatest == b"3" && dots.iter().all(|dot| *dot <= 3);
    (whole && right).then(|| Picture {
        width,
        dots: dots.to_vec(),
    })
}

impl Picture {
    fn height(&self) -> usize {
        self.dots.len() / self.width
    }

    /// The left part of a row.
    fn left(&self, row: usize) -> &[u8] {
        &self.dots[row * self.width..][..CUT]
    }
}

/// The left parts of pictures of one height, side by side.
fn side_by_side(pictures: &[Picture]) -> Option<Picture> {
    let height = pictures.first()?.height();
    let alike = |picture: &Picture| picture.height() == height && picture.width >= CUT;
    let row = |row: usize| {
        let parts: Vec<&[u8]> = pictures.iter().map(|picture| picture.left(row)).collect();
        parts.join(&[WHITE; GAP][..])
    };
    pictures.iter().all(alike).then(|| Picture {
        width: pictures.len() * (CUT + GAP) - GAP,
        dots: (0..height).flat_map(row).collect(),
    })
}

/// The rows of a PNG: each with the number of its filter, 0, and four dots to a byte.
fn packed(picture: &Picture) -> Vec<u8> {
    let mut bytes = Vec::new();
    for row in picture.dots.chunks(picture.width) {
        bytes.push(0);
        for four in row.chunks(4) {
            let dots = (0..).step_by(2).zip(four);
            bytes.push(dots.fold(0, |byte, (place, dot)| byte | dot << (6 - place)));
        }
    }
    bytes
}

/// Bits in a deflated stream's order: a number's low bit first, a code's high bit first.
#[derive(Default)]
struct Bits {
    bytes: Vec<u8>,
    used: usize,
}

impl Bits {
    fn number(&mut self, value: usize, bits: usize) {
        for bit in 0..bits {
            if self.used == 8 * self.bytes.len() {
                self.bytes.push(0);
            }
            self.bytes[self.used / 8] |= ((value >> bit & 1) as u8) << (self.used % 8);
            self.used += 1;
        }
    }

    fn code(&mut self, value: usize, bits: usize) {
        self.number(value.reverse_bits() >> (usize::BITS as usize - bits), bits);
    }

    /// A byte, the end, or a class of lengths, in the fixed code.
    fn symbol(&mut self, symbol: usize) {
        match symbol {
            0..=143 => self.code(0x30 + symbol, 8),
            144..=255 => self.code(0x190 + symbol - 144, 9),
            256..=279 => self.code(symbol - 256, 7),
            _ => self.code(0xC0 + symbol - 280, 8),
        }
    }

    /// A run of 3 to 257 bytes that stands so far back already.
    fn run(&mut self, length: usize, back: usize) {
        let (of_length, extra) = class(length - 3, 2);
        self.symbol(257 + of_length);
        self.number(length - 3, extra);
        let (of_back, extra) = class(back - 1, 1);
        self.code(of_back, 5);
        self.number(back - 1, extra);
    }
}

/// The class of a number and how many of its low bits follow. There are `1 << fine` classes to each power
/// of two.
fn class(number: usize, fine: usize) -> (usize, usize) {
    let mut extra = 0;
    while number >> extra >= 2 << fine {
        extra += 1;
    }
    ((extra << fine) + (number >> extra), extra)
}

/// The bytes deflated in one block of the fixed code. A run is looked for where its first three bytes
/// stood last, and one row back.
fn deflated(bytes: &[u8], row: usize) -> Vec<u8> {
    let mut bits = Bits::default();
    bits.number(0b011, 3);
    let mut last: HashMap<&[u8], usize> = HashMap::new();
    let mut at = 0;
    while at < bytes.len() {
        let alike = |back: &usize| {
            let pairs = bytes[at..].iter().zip(&bytes[at - back..]);
            pairs.take(257).take_while(|(a, b)| a == b).count()
        };
        let seen = bytes.get(at..at + 3).and_then(|three| last.get(three));
        let backs = [seen.map(|place| at - place), (at >= row).then_some(row)];
        let near = |back: &usize| *back <= 32768;
        let best = backs.into_iter().flatten().filter(near).max_by_key(alike);
        let length = match best {
            Some(back) if alike(&back) >= 3 => {
                bits.run(alike(&back), back);
                alike(&back)
            }
            _ => {
                bits.symbol(bytes[at].into());
                1
            }
        };
        for place in at..at + length {
            if let Some(three) = bytes.get(place..place + 3) {
                last.insert(three, place);
            }
        }
        at += length;
    }
    bits.symbol(256);
    bits.bytes
}

/// The sum of a zlib stream.
fn adler(bytes: &[u8]) -> u32 {
    let (mut low, mut high) = (1, 0);
    for byte in bytes {
        low = (low + u32::from(*byte)) % 65521;
        high = (high + low) % 65521;
    }
    high << 16 | low
}

/// The sum of a PNG's chunk.
fn crc(bytes: &[u8]) -> u32 {
    let mut sum = u32::MAX;
    for byte in bytes {
        sum ^= u32::from(*byte);
        for _ in 0..8 {
            sum = sum >> 1 ^ if sum & 1 == 1 { 0xEDB88320 } else { 0 };
        }
    }
    !sum
}

fn chunk(name: &[u8; 4], body: &[u8]) -> Vec<u8> {
    let named = [name, body].concat();
    let length = (body.len() as u32).to_be_bytes();
    [&length, &named[..], &crc(&named).to_be_bytes()].concat()
}

fn png(picture: &Picture) -> Vec<u8> {
    let (width, height) = (picture.width, picture.height());
    let size = [width, height].map(|number| (number as u32).to_be_bytes());
    let rows = packed(picture);
    let stream = deflated(&rows, rows.len() / height);
    let zlib = [&[0x78, 0x01], &stream[..], &adler(&rows).to_be_bytes()].concat();
    let grey_of_two_bits = [2, 0, 0, 0, 0];
    [
        b"\x89PNG\r\n\x1a\n".to_vec(),
        chunk(b"IHDR", &[&size.concat()[..], &grey_of_two_bits].concat()),
        chunk(b"IDAT", &zlib),
        chunk(b"IEND", &[]),
    ]
    .concat()
}

fn main() -> std::io::Result<()> {
    let files: Vec<_> = std::env::args_os().skip(1).collect();
    let shown = if files.is_empty() {
        let mut pgm = Vec::new();
        std::io::stdin().read_to_end(&mut pgm)?;
        picture(&pgm)
    } else {
        let pgms: Vec<Vec<u8>> = files.iter().map(std::fs::read).collect::<Result<_, _>>()?;
        let pictures: Option<Vec<Picture>> = pgms.iter().map(|pgm| picture(pgm)).collect();
        pictures.and_then(|pictures| side_by_side(&pictures))
    };
    match shown {
        Some(picture) => std::io::stdout().write_all(&png(&picture)),
        None => {
            eprintln!("usage: pgm_to_png < PGM > PNG, or pgm_to_png PGM.. > PNG; a PGM (P5) is of greys 0 to 3");
            std::process::exit(2);
        }
    }
}

#[cfg(test)]
mod tests {
    use super::*;

    fn grey(width: usize, height: usize, shade: u8) -> Picture {
        Picture {
            width,
            dots: vec![shade; width * height],
        }
    }

    #[test]
    fn pictures_stand_side_by_side() {
        let both = side_by_side(&[grey(800, 2, 1), grey(400, 2, 2)]).unwrap();
        let row = [[1; CUT].to_vec(), [WHITE; GAP].to_vec(), [2; CUT].to_vec()].concat();
        assert_eq!(both.width, row.len());
        assert_eq!(both.dots, row.repeat(2));
        assert!(side_by_side(&[grey(800, 2, 1), grey(800, 3, 1)]).is_none());
        assert!(side_by_side(&[grey(800, 2, 1), grey(399, 2, 1)]).is_none());
        assert!(side_by_side(&[]).is_none());
    }
}
