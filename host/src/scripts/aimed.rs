//! Stores that are aimed at what the kept picture shows.
use super::{capacity, Script, PLACES, RECORD, ROWS};

impl Script {
    /// A place beside the end of a row, as the kept picture shows it, or beside where a torn row's would be:
    /// from two before its FF to three after it.
    pub fn row_end(&mut self, row: usize, n: usize) -> usize {
        let columns = self.session.columns();
        let record = &self.session.picture()[row % ROWS * RECORD..];
        let start = usize::from(u16::from_be_bytes([record[0], record[1]]));
        let cells = match record[3] {
            255 => capacity(columns, record[2]),
            254 => n / 8 % 140,
            count => count.into(),
        };
        (start + cells + PLACES - 2 + n % 6) % PLACES
    }

    fn address(&mut self) -> usize {
        let (a, b) = (self.next(), self.next());
        let place = match a >> 4 & 7 {
            0..=3 => self.row_end(a >> 7, b),
            4 | 5 => b % 400,
            6 => b % 8,
            _ => b % PLACES,
        };
        match a & 15 {
            0 => b,
            1 => [0x10000, 0xEDFFF, 0xF0000, 0x100000, 0xFFFFFFFF][b % 5],
            2..=6 => 0xEF000 | place,
            _ => 0xEE000 | place,
        }
    }

    /// A byte to store at an address, and the one that is there.
    pub fn byte_for(&mut self, address: usize) -> (u8, u8) {
        let answer = self.session.answer(format!("read {address:X}").as_bytes());
        let was = String::from_utf8_lossy(&answer);
        let was = was.trim_end().strip_prefix("reads ");
        let was = was.map_or(0, |digits| u8::from_str_radix(digits, 16).unwrap_or(0));
        let n = self.next();
        let byte = match n & 7 {
            0..=2 => 0xFF,
            3..=5 => ((n >> 3) % 17) as u8,
            6 => (n >> 3) as u8,
            _ => was & 15 | (n >> 3 << 4) as u8,
        };
        (byte, was)
    }

    pub fn store(&mut self, address: usize, byte: u8) {
        self.line(&format!("store {address:05X} {byte:02X}"));
    }

    /// The same with the index lent.
    pub fn index_store(&mut self, address: usize, byte: u8) {
        self.line(&format!("index store {address:05X} {byte:02X}"));
    }

    fn aimed(&mut self) -> (usize, u8) {
        let address = self.address();
        let (byte, _) = self.byte_for(address);
        (address, byte)
    }

    pub fn aimed_store(&mut self) {
        let (address, byte) = self.aimed();
        self.store(address, byte);
    }

    pub fn aimed_index_store(&mut self) {
        let (address, byte) = self.aimed();
        self.index_store(address, byte);
    }
}
