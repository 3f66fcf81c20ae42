//! Bank to text: the control fields, then each part of the scheme, take their bits and give their
//! characters. All bits behind the last part are zero, those of further words too.

use crate::answer::{Answer, Refusal, Written};
use crate::bank::Bank;
use crate::bits::BitReader;
use crate::characters;
use crate::control::ControlFields;
use crate::line::Line;
use crate::tables::*;

/// Writes the tag's text of a bank: its length and the bank's words, or the refusal and nothing written.
pub fn bank_to_text(bank: &[u8], out: &mut [u8]) -> Answer {
    if out.len() < TEXT_ROOM {
        return Err(Refusal::without_place(refusal::OUTPUT));
    }
    let bank = Bank::new(bank)?;
    let scheme = scheme_of(&bank)?;
    zeros(bank.code, scheme.zero_from())?;
    let mut room = [0; TEXT_ROOM];
    let length = Decoder::new(scheme, &bank, &mut room).text(scheme)?;
    out[..length].copy_from_slice(&room[..length]);
    Ok(Written { length, words: bank.words() })
}

/// The scheme that the control word and the header name; the bank has all its words, and may have more.
fn scheme_of(bank: &Bank) -> Result<&'static Scheme, Refusal> {
    if bank.toggle() {
        return Err(Refusal::new(refusal::TOGGLE, address::TOGGLE));
    }
    if bank.control & control::XPC != 0 {
        return Err(Refusal::new(refusal::XPC, address::XPC));
    }
    let no_scheme = Refusal::new(refusal::HEADER, address::CODE);
    let scheme = Scheme::by_header(bank.code[0]).ok_or(no_scheme)?;
    if bank.words() < scheme.words {
        return Err(Refusal::new(refusal::WORDS, address::WORD_COUNT));
    }
    Ok(scheme)
}

/// The code bits from `start` on are zero; if not, the place is the first that is one.
fn zeros(code: &[u8], start: usize) -> Result<(), Refusal> {
    let mut looked_at = 0xFF >> (start % 8);
    for (place, byte) in code.iter().enumerate().skip(start / 8) {
        let ones = byte & looked_at;
        if ones != 0 {
            let first = 8 * place + ones.leading_zeros() as usize;
            return Err(Refusal::new(refusal::NOT_ZERO, address::CODE + first));
        }
        looked_at = 0xFF;
    }
    Ok(())
}

/// `bits` are those of the scheme's own words.
struct Decoder<'a> {
    bits: BitReader,
    line: Line<'a>,
    row: &'static Row,
}

impl<'a> Decoder<'a> {
    fn new(scheme: &Scheme, bank: &Bank, room: &'a mut [u8]) -> Self {
        let mut line = Line::new(room);
        line.push(TAG_START);
        ControlFields::of(bank.control).write(&mut line);
        line.push(scheme.name);
        let own = &bank.code[..scheme.words * WORD_BYTES];
        Decoder { bits: BitReader::new(own), line, row: &ROWS[0] }
    }

    /// The length of the text.
    fn text(mut self, scheme: &Scheme) -> Result<usize, Refusal> {
        self.bits.take(HEADER_BITS);
        let mut separator = b":";
        for part in scheme.parts {
            self.line.push(separator);
            self.part(part)?;
            separator = b".";
        }
        Ok(self.line.length())
    }

    /// The address of the next bit.
    fn address(&self) -> usize {
        address::CODE + self.bits.place()
    }

    fn part(&mut self, part: &Part) -> Result<(), Refusal> {
        match *part {
            Part::Filter => self.filter(),
            Part::Prefix => self.prefix(),
            Part::Reference(table) => self.padded(self.row.reference(table), refusal::REFERENCE),
            Part::RowInteger(table) => self.integer(self.row.integer(table)),
            Part::Integer(integer) => self.integer(integer),
            Part::String { bits } => self.string(bits),
            Part::NumericString(kind) => self.numeric_string(kind),
        }
    }

    fn filter(&mut self) -> Result<(), Refusal> {
        let value = self.bits.take(FILTER_BITS);
        self.line.integer(value);
        Ok(())
    }

    fn prefix(&mut self) -> Result<(), Refusal> {
        let begun = self.address();
        let partition = self.bits.take(PARTITION_BITS) as usize;
        self.row = ROWS.get(partition).ok_or(Refusal::new(refusal::PARTITION, begun))?;
        self.padded(self.row.prefix, refusal::PREFIX)
    }

    fn padded(&mut self, kind: Padded, number: u8) -> Result<(), Refusal> {
        let begun = self.address();
        let value = self.bits.take(kind.bits);
        if value >= 10u64.pow(kind.digits as u32) {
            return Err(Refusal::new(number, begun));
        }
        self.line.padded(value, kind.digits);
        Ok(())
    }

    /// Only a reference's limit is below what its bits hold.
    fn integer(&mut self, kind: Integer) -> Result<(), Refusal> {
        let begun = self.address();
        let value = self.bits.take(kind.bits);
        if value >= kind.limit {
            return Err(Refusal::new(refusal::REFERENCE, begun));
        }
        self.line.integer(value);
        Ok(())
    }

    /// Characters up to the first zero group or the string's end, at least one; then zeros only.
    fn string(&mut self, bits: usize) -> Result<(), Refusal> {
        let wrong = Refusal::new(refusal::STRING, self.address());
        let mut ended = false;
        for place in 0..bits / CHARACTER_BITS {
            let group = self.bits.take(CHARACTER_BITS) as u8;
            if group == 0 && place > 0 {
                ended = true;
                continue;
            }
            let form = characters::form(group).filter(|_| !ended).ok_or(wrong)?;
            self.line.push(form);
        }
        Ok(())
    }

    /// A number that reads as a 1 and so many digits; the digits are what is shown.
    fn numeric_string(&mut self, kind: NumericString) -> Result<(), Refusal> {
        let begun = self.address();
        let value = self.bits.take(kind.bits);
        let digits = value.checked_ilog10().unwrap_or(0);
        let one = 10u64.pow(digits);
        if !(1..=kind.most as u32).contains(&digits) || value >= 2 * one {
            return Err(Refusal::new(refusal::STRING, begun));
        }
        self.line.padded(value - one, digits as usize);
        Ok(())
    }
}
