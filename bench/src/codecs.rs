//! The two codecs behind the signatures of include/tagcodec.h: the proved one's exported calls themselves, and second's as a C caller
//! would have them. So neither is measured with more around it than the other. tests/agree calls them from here too.
use second::{tables, Refusal, Written};
use std::slice::{from_raw_parts, from_raw_parts_mut};

/// The word count that asks for as few words as the scheme needs, and the largest that a bank can have.
pub const SMALLEST: u32 = tables::SMALLEST as u32;
pub const MOST_WORDS: u32 = tables::MOST_WORDS as u32;

#[repr(C)]
#[derive(Clone, Copy, Debug, PartialEq)]
pub struct Reply {
    pub number: u32,
    pub place: u16,
    pub words: u16,
    pub length: usize,
}

type NumberCall = unsafe extern "C" fn(*const u8, usize, u32, *mut u8, usize) -> Reply;
type PlainCall = unsafe extern "C" fn(*const u8, usize, *mut u8, usize) -> Reply;

/// A call of one codec. Two come with a number: text to bank with the word count to ask for, identity to tag with the filter.
#[derive(Clone, Copy)]
pub enum Call {
    Number(NumberCall, u32),
    Plain(PlainCall),
}

impl Call {
    pub fn give(self, given: &[u8], out: &mut [u8]) -> Reply {
        match self {
            Call::Number(call, number) => give_number(call, given, number, out),
            Call::Plain(call) => give_plain(call, given, out),
        }
    }
}

pub fn give_number(call: NumberCall, text: &[u8], number: u32, out: &mut [u8]) -> Reply {
    unsafe { call(text.as_ptr(), text.len(), number, out.as_mut_ptr(), out.len()) }
}

pub fn give_plain(call: PlainCall, given: &[u8], out: &mut [u8]) -> Reply {
    unsafe { call(given.as_ptr(), given.len(), out.as_mut_ptr(), out.len()) }
}

/// A call of both codecs.
#[derive(Clone, Copy)]
pub struct Pair {
    pub proved: Call,
    pub second: Call,
}

extern "C" {
    fn tagcodec_text_to_bank(text: *const u8, text_length: usize, words: u32, out: *mut u8, out_length: usize) -> Reply;
    fn tagcodec_bank_to_text(bank: *const u8, bank_length: usize, out: *mut u8, out_length: usize) -> Reply;
    fn tagcodec_raw_line(bank: *const u8, bank_length: usize, out: *mut u8, out_length: usize) -> Reply;
    fn tagcodec_tag_to_identity(text: *const u8, text_length: usize, out: *mut u8, out_length: usize) -> Reply;
    fn tagcodec_identity_to_tag(text: *const u8, text_length: usize, filter: u32, out: *mut u8, out_length: usize) -> Reply;
}

macro_rules! called_from_c {
    ($name:ident, $call:path $(, $number:ident as $type:ty)?) => {
        unsafe extern "C" fn $name(given: *const u8, given_length: usize, $($number: u32,)? out: *mut u8, out_length: usize) -> Reply {
            match $call(from_raw_parts(given, given_length), $($number as $type,)? from_raw_parts_mut(out, out_length)) {
                Ok(Written { length, words }) => Reply { number: 0, place: 0, words: words as u16, length },
                Err(Refusal { number, place }) => Reply { number: number.into(), place: place as u16, words: 0, length: 0 },
            }
        }
    };
}

called_from_c!(second_text_to_bank, second::text_to_bank, words as usize);
called_from_c!(second_bank_to_text, second::bank_to_text);
called_from_c!(second_raw_line, second::raw_line);
called_from_c!(second_tag_to_identity, second::tag_to_identity);
called_from_c!(second_identity_to_tag, second::identity_to_tag, filter as u32);

/// Text to bank, asked for so many words.
pub const fn text_to_bank(words: u32) -> Pair {
    Pair { proved: Call::Number(tagcodec_text_to_bank, words), second: Call::Number(second_text_to_bank, words) }
}

/// Identity to tag with a filter.
pub const fn identity_to_tag(filter: u32) -> Pair {
    Pair { proved: Call::Number(tagcodec_identity_to_tag, filter), second: Call::Number(second_identity_to_tag, filter) }
}

pub const BANK_TO_TEXT: Pair = Pair { proved: Call::Plain(tagcodec_bank_to_text), second: Call::Plain(second_bank_to_text) };
pub const RAW_LINE: Pair = Pair { proved: Call::Plain(tagcodec_raw_line), second: Call::Plain(second_raw_line) };
pub const TAG_TO_IDENTITY: Pair =
    Pair { proved: Call::Plain(tagcodec_tag_to_identity), second: Call::Plain(second_tag_to_identity) };
