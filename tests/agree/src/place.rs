//! A place that a refusal can have, and what led to it.
use std::fmt;

/// What tells an input from others that are refused with the same number at the same place.
#[derive(Clone, Copy, PartialEq, Eq, PartialOrd, Ord)]
pub enum Why {
    Plain,
    /// The part, or the colon behind control fields, is missing at the text's end.
    AtEnd,
    /// A control field is wrong.
    Field,
    /// The word count that is asked for.
    Asked(u32),
    /// The bank's word count.
    Words(usize),
    /// The bits that must be zero, in a bank of the scheme's own words; for 12, all control bits from 15h on.
    Bits(u32),
    /// How many of the bits that must be zero are one, in a bank with further words.
    Ones(usize),
    /// The first group of a string that is wrong.
    Group(usize),
    /// How many decimal digits a numeric string's integer has.
    Digits(u32),
}

/// `row` is a partition value; a number that is given before the row is known has none. `fields` is how many characters of control
/// fields, with the colon behind them, stand before the name in a text whose fields are good.
#[derive(Clone, Copy, PartialEq, Eq, PartialOrd, Ord)]
pub struct Place {
    pub scheme: Option<&'static [u8]>,
    pub row: Option<usize>,
    pub fields: usize,
    pub number: u32,
    pub place: u16,
    pub why: Why,
}

impl fmt::Display for Place {
    fn fmt(&self, f: &mut fmt::Formatter) -> fmt::Result {
        let Place { scheme, row, fields, number, place, .. } = self;
        write!(f, "{}, ", scheme.map_or("any scheme".into(), |name| name.escape_ascii().to_string()))?;
        write!(f, "{}: ", row.map_or("any row".into(), |row| format!("row {row}")))?;
        match number {
            0..=8 | 20 => write!(f, "{number} at offset {place}")?,
            9 => write!(f, "{number} at {place} bytes")?,
            21 | 22 => write!(f, "{number}")?,
            _ => write!(f, "{number} at {place:X}h")?,
        }
        if *fields > 0 {
            write!(f, ", behind {fields} characters of control fields")?;
        }
        match self.why {
            Why::Plain => Ok(()),
            Why::AtEnd => write!(f, ", the text's end"),
            Why::Field => write!(f, ", where a control field is wrong"),
            Why::Asked(words) => write!(f, ", asked for {words} words"),
            Why::Words(words) => write!(f, " of {words} words"),
            Why::Bits(bits) => write!(f, ", the bits being {bits:X} in hexadecimal"),
            Why::Ones(ones) => write!(f, " in a bank with further words, where {ones} of the bits are one"),
            Why::Group(group) => write!(f, ", where group {group} is wrong, counted from 0"),
            Why::Digits(digits) => write!(f, ", where the integer has {digits} digits"),
        }
    }
}
