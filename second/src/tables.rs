//! Every number of document 01 and of document 02's requests C-11, C-12, C-13, C-15 and C-16, typed from
//! their tables and sentences; `schemes` has those of the schemes and of the partition tables, `families`
//! the families of identities.

mod families;
mod schemes;

pub use families::*;
pub use schemes::*;

/// Numbers of refusals, "Numbers given, and when", in the order in which they are looked for.
pub mod refusal {
    pub const OUTPUT: u8 = 1;
    pub const TOO_MANY_WORDS: u8 = 21;
    pub const START: u8 = 2;
    pub const CONTROL_FIELDS: u8 = 20;
    pub const NAME: u8 = 3;
    pub const FILTER: u8 = 4;
    pub const FIRST: u8 = 5;
    pub const SECOND: u8 = 6;
    pub const LAST_FORM: u8 = 7;
    pub const LAST_SIZE: u8 = 8;
    pub const TOO_FEW_WORDS: u8 = 22;
    pub const LENGTH: u8 = 9;
    pub const NO_WORDS: u8 = 10;
    pub const TOGGLE: u8 = 11;
    pub const XPC: u8 = 12;
    pub const HEADER: u8 = 13;
    pub const WORDS: u8 = 14;
    pub const NOT_ZERO: u8 = 15;
    pub const PARTITION: u8 = 16;
    pub const PREFIX: u8 = 17;
    pub const REFERENCE: u8 = 18;
    pub const STRING: u8 = 19;
    pub const IDENTITY: u8 = 23;
    pub const GIVEN_FILTER: u8 = 24;
    pub const NO_SCHEME: u8 = 25;
}

/// The refusals of a bank whose raw line is shown.
pub const SHOWN_RAW: std::ops::RangeInclusive<u8> = refusal::TOGGLE..=refusal::STRING;

/// The least output of a call that writes a bank, and of one that writes a text.
pub const BANK_ROOM: usize = 64;
pub const TEXT_ROOM: usize = 160;

/// The most words that a bank can count, and the count that asks for as few as the scheme needs.
pub const MOST_WORDS: usize = 31;
pub const SMALLEST: usize = 0;

/// The largest filter that can be given with an identity whose scheme has one.
pub const MOST_FILTER: u32 = 7;

/// The longest lines of the programs: a text, and a bank in hex.
pub const TEXT_LINE: usize = 200;
pub const BANK_LINE: usize = 128;

pub const LINE_START: &[u8] = b"urn:";
pub const TAG_START: &[u8] = b"urn:epc:tag:";
pub const RAW_START: &[u8] = b"urn:epc:raw:";
pub const IDENTITY_START: &[u8] = b"urn:epc:id:";

/// Control fields before a scheme's name: the user memory bit, the attribute bits in hex, and what stands
/// behind the last field.
pub const FIELD_START: &[u8] = b"[";
pub const UMI_FIELD: &[u8] = b"[umi=1]";
pub const ATT_START: &[u8] = b"[att=x";
pub const ATT_END: &[u8] = b"]";
pub const FIELDS_END: &[u8] = b":";

pub const WORD_BITS: usize = 16;
pub const WORD_BYTES: usize = WORD_BITS / 8;
pub const HEADER_BITS: usize = 8;
pub const FILTER_BITS: usize = 3;
pub const PARTITION_BITS: usize = 3;
pub const CHARACTER_BITS: usize = 7;

/// The control word, addresses 10h to 1Fh: its lowest bit is 1Fh.
pub mod control {
    pub const WORD_COUNT_SHIFT: usize = 11;
    pub const UMI: u16 = 0x0400;
    pub const XPC: u16 = 0x0200;
    pub const TOGGLE: u16 = 0x0100;
    pub const ATT: u16 = 0x00FF;
    /// Where the toggle is 1, what are attribute bits otherwise.
    pub const AFI: u16 = 0x00FF;
}

/// Bank addresses, which count from the word count's first bit; code bit 0 is `CODE`.
pub mod address {
    pub const WORD_COUNT: usize = 0x10;
    pub const XPC: usize = 0x16;
    pub const TOGGLE: usize = 0x17;
    pub const CODE: usize = 0x20;
}
