//! The text of a tag, read: the start, the control fields and the name, then each part of the scheme.

use crate::answer::Refusal;
use crate::characters;
use crate::control::ControlFields;
use crate::numerals;
use crate::tables::*;

/// A text up to its name's colon, and the parts behind it, which are not yet looked at.
pub struct TagText<'a> {
    text: &'a [u8],
    pub fields: ControlFields,
    pub scheme: &'static Scheme,
    pub parts: &'a [u8],
}

impl<'a> TagText<'a> {
    pub fn new(text: &'a [u8]) -> Result<Self, Refusal> {
        let rest = text.strip_prefix(TAG_START).ok_or(refused(refusal::START, text, text))?;
        let (fields, named) = ControlFields::read(rest)
            .map_err(|wrong| refused(refusal::CONTROL_FIELDS, text, wrong))?;
        let no_name = refused(refusal::NAME, text, named);
        let (name, parts) = split(named, b':').ok_or(no_name)?;
        let scheme = Scheme::by_name(name).ok_or(no_name)?;
        Ok(TagText { text, fields, scheme, parts })
    }

    /// Gives away the value of each part and how many bits it takes in a bank, in order; or the refusal
    /// of the first part that is wrong.
    pub fn values(&self, give: impl FnMut(u64, usize)) -> Result<(), Refusal> {
        let mut reader = PartReader { text: self.parts, row: &ROWS[0], give };
        reader.parts(self.scheme.parts).map_err(|number| refused(number, self.text, reader.text))
    }
}

/// The refusal of what a text ends with.
fn refused(number: u8, text: &[u8], rest: &[u8]) -> Refusal {
    Refusal::new(number, text.len() - rest.len())
}

/// `text` begins with the part that is being read.
struct PartReader<'a, Give> {
    text: &'a [u8],
    row: &'static Row,
    give: Give,
}

impl<Give: FnMut(u64, usize)> PartReader<'_, Give> {
    /// All parts, or the number of the first refused, which `text` then begins with.
    fn parts(&mut self, parts: &[Part]) -> Result<(), u8> {
        if let Some((last, before)) = parts.split_last() {
            for part in before {
                let (characters, rest) = split(self.text, b'.').ok_or(part.form())?;
                self.part(part, characters)?;
                self.text = rest;
            }
            self.part(last, self.text)?;
        }
        Ok(())
    }

    fn part(&mut self, part: &Part, characters: &[u8]) -> Result<(), u8> {
        match *part {
            Part::Filter => self.filter(characters),
            Part::Prefix => self.prefix(characters),
            Part::Reference(table) => {
                self.padded(characters, self.row.reference(table), refusal::SECOND)
            }
            Part::RowInteger(table) => self.integer(characters, self.row.integer(table)),
            Part::Integer(integer) => self.integer(characters, integer),
            Part::String { bits } => self.string(characters, bits),
            Part::NumericString(kind) => self.numeric_string(characters, kind),
        }
    }

    fn filter(&mut self, characters: &[u8]) -> Result<(), u8> {
        let &[digit @ b'0'..=b'7'] = characters else { return Err(refusal::FILTER) };
        (self.give)((digit - b'0').into(), FILTER_BITS);
        Ok(())
    }

    fn prefix(&mut self, characters: &[u8]) -> Result<(), u8> {
        let partition = Row::partition(characters.len()).ok_or(refusal::FIRST)?;
        self.row = &ROWS[partition];
        (self.give)(partition as u64, PARTITION_BITS);
        self.padded(characters, self.row.prefix, refusal::FIRST)
    }

    fn padded(&mut self, characters: &[u8], kind: Padded, number: u8) -> Result<(), u8> {
        if characters.len() != kind.digits {
            return Err(number);
        }
        let value = numerals::padded(characters).ok_or(number)?;
        (self.give)(value, kind.bits);
        Ok(())
    }

    fn integer(&mut self, characters: &[u8], kind: Integer) -> Result<(), u8> {
        let value = numerals::integer(characters, kind)?;
        (self.give)(value, kind.bits);
        Ok(())
    }

    /// The whole string is read for its form, though only so many characters can be given away.
    fn string(&mut self, characters: &[u8], bits: usize) -> Result<(), u8> {
        let (most, mut count) = (bits / CHARACTER_BITS, 0);
        let mut rest = characters;
        while !rest.is_empty() {
            let (value, taken) = characters::first(rest).ok_or(refusal::LAST_FORM)?;
            if count < most {
                (self.give)(value.into(), CHARACTER_BITS);
            }
            count += 1;
            rest = &rest[taken..];
        }
        match count {
            0 => Err(refusal::LAST_FORM),
            _ if count > most => Err(refusal::LAST_SIZE),
            _ => Ok(()),
        }
    }

    fn numeric_string(&mut self, characters: &[u8], kind: NumericString) -> Result<(), u8> {
        let value = numerals::numeric_string(characters, kind)?;
        (self.give)(value, kind.bits);
        Ok(())
    }
}

/// What stands before the first such byte, and what stands after it.
pub fn split(text: &[u8], byte: u8) -> Option<(&[u8], &[u8])> {
    let place = text.iter().position(|&other| other == byte)?;
    Some((&text[..place], &text[place + 1..]))
}
