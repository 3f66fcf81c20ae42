//! The answer of the program tagline to one line.

use crate::line::Line;
use crate::numerals::hex_value;
use crate::replies;
use crate::tables::*;
use crate::{bank_to_text, raw_line, screen, text_to_bank};

/// Adds the answer to a line, which comes without its line feed, and a line feed.
pub fn reply(line: &[u8], out: &mut Vec<u8>) {
    replies::add(out, |answer| {
        if line.starts_with(LINE_START) {
            reply_to_text(line, answer);
        } else {
            reply_to_hex(line, answer);
        }
    });
}

fn reply_to_text(text: &[u8], answer: &mut Line) {
    if text.len() > TEXT_LINE {
        return replies::no_line(answer);
    }
    let mut bank = [0; BANK_ROOM];
    match text_to_bank(text, SMALLEST, &mut bank) {
        Ok(written) => {
            answer.push(b"B ");
            answer.hex(&bank[..written.length]);
        }
        Err(refusal) => replies::number(b"N ", refusal.number, answer),
    }
}

fn reply_to_hex(line: &[u8], answer: &mut Line) {
    let mut bank = [0; BANK_LINE / 2];
    match read_hex(line, &mut bank) {
        Some(length) => reply_to_bank(&bank[..length], answer),
        None => replies::no_line(answer),
    }
}

fn reply_to_bank(bank: &[u8], answer: &mut Line) {
    let mut tag = [0; TEXT_ROOM];
    match bank_to_text(bank, &mut tag) {
        Ok(written) => {
            answer.push(b"T ");
            answer.push(&tag[..written.length]);
        }
        Err(refusal) => reply_to_refused(bank, refusal.number, answer),
    }
}

/// The number and the line on the screen, or the number alone where that line is empty.
fn reply_to_refused(bank: &[u8], number: u8, answer: &mut Line) {
    let mut raw = [0; TEXT_ROOM];
    let length = raw_line(bank, &mut raw).map_or(0, |written| written.length);
    let shown = screen(&[], &raw[..length], number);
    if shown.is_empty() {
        return replies::number(b"N ", number, answer);
    }
    replies::number(b"R ", number, answer);
    answer.push(b" ");
    answer.push(shown);
}

/// How many bytes an even number of upper-case hex digits gave, at most 128 digits.
fn read_hex(line: &[u8], room: &mut [u8; BANK_LINE / 2]) -> Option<usize> {
    if line.len() > BANK_LINE || !line.len().is_multiple_of(2) {
        return None;
    }
    for (byte, digits) in room.iter_mut().zip(line.chunks_exact(2)) {
        *byte = hex_value(digits[0])? << 4 | hex_value(digits[1])?;
    }
    Some(line.len() / 2)
}
