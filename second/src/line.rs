//! A text being written into a lent slice.

use crate::numerals::hex_digits;

pub struct Line<'a> {
    room: &'a mut [u8],
    length: usize,
}

impl<'a> Line<'a> {
    pub fn new(room: &'a mut [u8]) -> Self {
        Line { room, length: 0 }
    }

    pub fn length(&self) -> usize {
        self.length
    }

    pub fn push(&mut self, text: &[u8]) {
        self.next(text.len()).copy_from_slice(text);
    }

    /// A number filled with zeros to so many digits; no digit at all for 0 of them.
    pub fn padded(&mut self, mut value: u64, digits: usize) {
        for digit in self.next(digits).iter_mut().rev() {
            *digit = b'0' + (value % 10) as u8;
            value /= 10;
        }
    }

    /// A number without leading zeros.
    pub fn integer(&mut self, value: u64) {
        let digits = value.checked_ilog10().unwrap_or(0) as usize + 1;
        self.padded(value, digits);
    }

    pub fn hex(&mut self, bytes: &[u8]) {
        for (digits, &byte) in self.next(2 * bytes.len()).chunks_exact_mut(2).zip(bytes) {
            digits.copy_from_slice(&hex_digits(byte));
        }
    }

    fn next(&mut self, length: usize) -> &mut [u8] {
        let start = self.length;
        self.length += length;
        &mut self.room[start..self.length]
    }
}
