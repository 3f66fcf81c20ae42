//! What a call gives.

/// What was written, or the refusal, and then nothing is written.
pub type Answer = Result<Written, Refusal>;

/// How many bytes were written, and the word count of the bank that was written or read; 0 where there was
/// no bank.
#[derive(Clone, Copy, Debug, PartialEq, Eq)]
pub struct Written {
    pub length: usize,
    pub words: usize,
}

/// The number of the first rule that was broken, and the place: in a text the offset of the first
/// character of the part or control field that was refused, or where the colon behind control fields is
/// missing; in a bank the address of the part's first bit. A bank that is too short has its number of
/// bytes for a place; a number without one has 0.
#[derive(Clone, Copy, Debug, PartialEq, Eq)]
pub struct Refusal {
    pub number: u8,
    pub place: usize,
}

impl Refusal {
    pub fn new(number: u8, place: usize) -> Self {
        Refusal { number, place }
    }

    pub fn without_place(number: u8) -> Self {
        Refusal { number, place: 0 }
    }
}
