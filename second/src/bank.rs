//! The bank's control word and code words; the raw line; which line the screen shows.

use crate::answer::{Answer, Refusal, Written};
use crate::line::Line;
use crate::tables::*;

/// A bank that holds all the words that it counts, and at least one; bytes after them are cut off.
pub struct Bank<'a> {
    pub control: u16,
    pub code: &'a [u8],
}

impl<'a> Bank<'a> {
    /// The bank in these bytes, or the refusal.
    pub fn new(bytes: &'a [u8]) -> Result<Self, Refusal> {
        let too_short = Refusal::new(refusal::LENGTH, bytes.len());
        let (control, rest) = bytes.split_first_chunk().ok_or(too_short)?;
        let control = u16::from_be_bytes(*control);
        let words = usize::from(control >> control::WORD_COUNT_SHIFT);
        let code = rest.get(..words * WORD_BYTES).ok_or(too_short)?;
        if code.is_empty() {
            return Err(Refusal::new(refusal::NO_WORDS, address::WORD_COUNT));
        }
        Ok(Bank { control, code })
    }

    pub fn words(&self) -> usize {
        self.code.len() / WORD_BYTES
    }

    pub fn toggle(&self) -> bool {
        self.control & control::TOGGLE != 0
    }

    fn afi(&self) -> u8 {
        (self.control & control::AFI) as u8
    }
}

/// Writes the raw line of a bank: its length and the bank's words, or the refusal and nothing written.
pub fn raw_line(bank: &[u8], out: &mut [u8]) -> Answer {
    if out.len() < TEXT_ROOM {
        return Err(Refusal::without_place(refusal::OUTPUT));
    }
    let bank = Bank::new(bank)?;
    let mut line = Line::new(out);
    line.push(RAW_START);
    line.integer((bank.words() * WORD_BITS) as u64);
    if bank.toggle() {
        line.push(b".x");
        line.hex(&[bank.afi()]);
    }
    line.push(b".x");
    line.hex(bank.code);
    Ok(Written { length: line.length(), words: bank.words() })
}

/// The line on the screen, by the number of the bank call.
pub fn screen<'a>(tag: &'a [u8], raw: &'a [u8], number: u8) -> &'a [u8] {
    match number {
        0 => tag,
        number if SHOWN_RAW.contains(&number) => raw,
        _ => &raw[..0],
    }
}
