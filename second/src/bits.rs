//! Bits in bytes, most significant first: a writer and a reader, each at a place that moves on.

use crate::tables::BANK_ROOM;

/// Bits are gathered at the low end of `window` and leave it by whole bytes.
pub struct BitWriter {
    bytes: [u8; BANK_ROOM],
    length: usize,
    window: u128,
    held: usize,
}

impl BitWriter {
    pub fn new() -> Self {
        BitWriter { bytes: [0; BANK_ROOM], length: 0, window: 0, held: 0 }
    }

    /// Writes a value of at most 64 bits that is below 2 to the power of `bits`.
    pub fn push(&mut self, value: u64, bits: usize) {
        debug_assert!(bits <= 64 && u128::from(value) >> bits == 0);
        self.window = self.window << bits | u128::from(value);
        self.held += bits;
        while self.held >= 8 {
            self.held -= 8;
            self.bytes[self.length] = (self.window >> self.held) as u8;
            self.length += 1;
        }
    }

    /// The bytes written, and zeros after them.
    pub fn finish(mut self) -> [u8; BANK_ROOM] {
        self.push(0, (8 - self.held) % 8);
        self.bytes
    }
}

/// Reads past the bytes' end as zeros, so a window of 16 bytes may start at any of them.
pub struct BitReader {
    bytes: [u8; Self::ROOM + Self::WINDOW],
    place: usize,
}

impl BitReader {
    const ROOM: usize = 32;
    const WINDOW: usize = 16;

    /// A reader of at most 32 bytes.
    pub fn new(code: &[u8]) -> Self {
        let mut bytes = [0; Self::ROOM + Self::WINDOW];
        bytes[..code.len()].copy_from_slice(code);
        BitReader { bytes, place: 0 }
    }

    /// The place of the next bit.
    pub fn place(&self) -> usize {
        self.place
    }

    /// The next 1 to 64 bits.
    pub fn take(&mut self, bits: usize) -> u64 {
        debug_assert!((1..=64).contains(&bits));
        let mut window = [0; Self::WINDOW];
        window.copy_from_slice(&self.bytes[self.place / 8..][..Self::WINDOW]);
        let value = u128::from_be_bytes(window) << (self.place % 8) >> (128 - bits);
        self.place += bits;
        value as u64
    }
}
