//! What the lines must show of identities: every number of every family.
use second::tables::{Family, FAMILIES, IDENTITY_START};
use std::collections::BTreeSet;
use std::fmt;

/// The filters that every identity is given: each that a line can have, and larger ones, some of which are good in their last bits.
pub const FILTERS: [u32; 16] = [0, 1, 2, 3, 4, 5, 6, 7, 8, 9, 255, 256, 263, 65_536, 1 << 31, u32::MAX];

/// Accepted, no identity, a wrong filter, no scheme: each family has all four.
const NUMBERS: [u32; 4] = [0, 23, 24, 25];

/// What stands behind a digit and a space, or the whole line.
pub fn identity_in(line: &[u8]) -> &[u8] {
    match line {
        [b'0'..=b'9', b' ', identity @ ..] => identity,
        _ => line,
    }
}

/// A number that an identity of a family was given.
#[derive(PartialEq, Eq, PartialOrd, Ord)]
pub struct Judged {
    family: &'static [u8],
    number: u32,
}

impl Judged {
    /// None where the text names no family.
    pub fn new(text: &[u8], number: u32) -> Option<Self> {
        let named = text.strip_prefix(IDENTITY_START)?;
        let name = named.split(|&byte| byte == b':').next()?;
        Family::by_name(name).map(|family| Judged { family: family.name, number })
    }
}

impl fmt::Display for Judged {
    fn fmt(&self, f: &mut fmt::Formatter) -> fmt::Result {
        write!(f, "{}: {}", self.family.escape_ascii(), self.number)
    }
}

pub fn expected() -> BTreeSet<Judged> {
    FAMILIES.iter().flat_map(|family| NUMBERS.map(|number| Judged { family: family.name, number })).collect()
}
