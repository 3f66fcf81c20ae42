//! The calls of include/tagcodec.h for Rust: link libcapi.a. What the header asks of a caller, Rust's references keep.
#![allow(dead_code)]

#[repr(C)]
struct Reply {
    number: u32,
    place: u16,
    words: u16,
    length: usize,
}

#[repr(C)]
struct Shown {
    text: u32,
    length: usize,
}

extern "C" {
    fn tagcodec_text_to_bank(text: *const u8, text_length: usize, words: u32, out: *mut u8, out_length: usize) -> Reply;
    fn tagcodec_bank_to_text(bank: *const u8, bank_length: usize, out: *mut u8, out_length: usize) -> Reply;
    fn tagcodec_raw_line(bank: *const u8, bank_length: usize, out: *mut u8, out_length: usize) -> Reply;
    fn tagcodec_tag_to_identity(text: *const u8, text_length: usize, out: *mut u8, out_length: usize) -> Reply;
    fn tagcodec_identity_to_tag(text: *const u8, text_length: usize, filter: u32, out: *mut u8, out_length: usize) -> Reply;
    fn tagcodec_screen(tag: *const u8, tag_length: usize, raw: *const u8, raw_length: usize, number: u32) -> Shown;
}

/// The bytes that an output must have.
pub const BANK_ROOM: usize = 64;
pub const TEXT_ROOM: usize = 160;

/// What was written: its length, and the word count W of the bank that was written or read, 0 where there was none.
#[derive(Clone, Copy, Debug, PartialEq)]
pub struct Written {
    pub length: usize,
    pub words: u32,
}

/// The number of the first broken rule, and where: an offset in a text, an address in a bank; include/tagcodec.h has them all.
#[derive(Clone, Copy, Debug, PartialEq)]
pub struct Refusal {
    pub number: u32,
    pub place: u32,
}

pub type Answer = Result<Written, Refusal>;

fn answer(Reply { number, place, words, length }: Reply) -> Answer {
    match number {
        0 => Ok(Written { length, words: words.into() }),
        _ => Err(Refusal { number, place: place.into() }),
    }
}

/// `words` is the W to write, 0 for the smallest.
pub fn text_to_bank(text: &[u8], words: u32, out: &mut [u8]) -> Answer {
    answer(unsafe { tagcodec_text_to_bank(text.as_ptr(), text.len(), words, out.as_mut_ptr(), out.len()) })
}

pub fn bank_to_text(bank: &[u8], out: &mut [u8]) -> Answer {
    answer(unsafe { tagcodec_bank_to_text(bank.as_ptr(), bank.len(), out.as_mut_ptr(), out.len()) })
}

pub fn raw_line(bank: &[u8], out: &mut [u8]) -> Answer {
    answer(unsafe { tagcodec_raw_line(bank.as_ptr(), bank.len(), out.as_mut_ptr(), out.len()) })
}

/// The pure identity of a tag's text.
pub fn tag_to_identity(text: &[u8], out: &mut [u8]) -> Answer {
    answer(unsafe { tagcodec_tag_to_identity(text.as_ptr(), text.len(), out.as_mut_ptr(), out.len()) })
}

/// The text of the tag that has this identity and this filter; for gid the filter is 0.
pub fn identity_to_tag(text: &[u8], filter: u32, out: &mut [u8]) -> Answer {
    answer(unsafe { tagcodec_identity_to_tag(text.as_ptr(), text.len(), filter, out.as_mut_ptr(), out.len()) })
}

/// The line on the screen, a part of one of the two texts.
pub fn screen<'a>(tag: &'a [u8], raw: &'a [u8], number: u32) -> &'a [u8] {
    let line = unsafe { tagcodec_screen(tag.as_ptr(), tag.len(), raw.as_ptr(), raw.len(), number) };
    let text = if line.text == 0 { tag } else { raw };
    &text[..line.length]
}
