//! The answer of the program identity to one line.

use crate::answer::Answer;
use crate::line::Line;
use crate::replies;
use crate::tables::*;
use crate::{identity_to_tag, tag_to_identity};

/// Adds the answer to a line, which comes without its line feed, and a line feed.
pub fn identity_reply(line: &[u8], out: &mut Vec<u8>) {
    replies::add(out, |answer| match line {
        _ if line.len() > TEXT_LINE => replies::no_line(answer),
        [digit @ b'0'..=b'9', b' ', identity @ ..] if identity.starts_with(IDENTITY_START) => {
            let filter = u32::from(digit - b'0');
            show(b"T ", |text| identity_to_tag(identity, filter, text), answer);
        }
        tag if tag.starts_with(TAG_START) => show(b"I ", |text| tag_to_identity(tag, text), answer),
        _ => replies::no_line(answer),
    });
}

/// The letter and the text that a call writes, or its refusal.
fn show(letter: &[u8], call: impl FnOnce(&mut [u8]) -> Answer, answer: &mut Line) {
    let mut text = [0; TEXT_ROOM];
    match call(&mut text) {
        Ok(written) => {
            answer.push(letter);
            answer.push(&text[..written.length]);
        }
        Err(refusal) => replies::number(b"N ", refusal.number, answer),
    }
}
