//! What the examples in Rust have in common: their arguments, a number that is given in decimal, and a text that is refused.
use crate::tagcodec::Refusal;
use std::os::unix::ffi::OsStringExt;

pub fn arguments() -> Vec<Vec<u8>> {
    std::env::args_os().skip(1).map(OsStringExt::into_vec).collect()
}

/// The value of decimal digits, if 32 bits hold it; a plus sign, which `parse` would take, is no digit.
pub fn from_decimal(text: &[u8]) -> Option<u32> {
    std::str::from_utf8(text).ok().filter(|text| !text.starts_with('+'))?.parse().ok()
}

/// The bytes as characters; one that can't be shown is a question mark.
pub fn printable(bytes: &[u8]) -> String {
    bytes.iter().map(|&byte| if (b' '..=b'~').contains(&byte) { byte.into() } else { '?' }).collect()
}

/// The number and the place, then the text, and a mark under the character at the place.
pub fn refused(Refusal { number, place }: Refusal, text: &[u8]) -> String {
    format!("{number} at {place}\n{}\n{:2$}^", printable(text), "", place as usize)
}
