//! Text to bank: each part of the text gives its bits. Zeros follow, to the end of the words that are asked
//! for.

use crate::answer::{Answer, Refusal, Written};
use crate::bits::BitWriter;
use crate::tables::*;
use crate::tag_text::TagText;

/// Writes the bank of a tag's text in so many words, for 0 in as few as its scheme needs: its length and
/// its words, or the refusal and nothing written.
pub fn text_to_bank(text: &[u8], words: usize, out: &mut [u8]) -> Answer {
    if out.len() < BANK_ROOM {
        return Err(Refusal::without_place(refusal::OUTPUT));
    }
    if words > MOST_WORDS {
        return Err(Refusal::without_place(refusal::TOO_MANY_WORDS));
    }
    let tag = TagText::new(text)?;
    let words = if words == SMALLEST { tag.scheme.words } else { words };
    let mut bits = begun(&tag, words);
    tag.values(|value, width| bits.push(value, width))?;
    if words < tag.scheme.words {
        return Err(Refusal::without_place(refusal::TOO_FEW_WORDS));
    }
    let length = WORD_BYTES * (1 + words);
    out[..length].copy_from_slice(&bits.finish()[..length]);
    Ok(Written { length, words })
}

/// The control word and the header. Zeros after the parts, fill bits and further words are those that the
/// writer ends with.
fn begun(tag: &TagText, words: usize) -> BitWriter {
    let mut bits = BitWriter::new();
    let control = (words as u16) << control::WORD_COUNT_SHIFT | tag.fields.bits();
    bits.push(control.into(), WORD_BITS);
    bits.push(tag.scheme.header.into(), HEADER_BITS);
    bits
}
