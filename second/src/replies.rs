//! What the answers of both programs have in common.

use crate::line::Line;
use crate::tables::TEXT_ROOM;

/// Room for the longest answer: a letter, a number and the longest raw line.
const ANSWER_ROOM: usize = TEXT_ROOM;

/// Adds an answer and a line feed.
pub fn add(out: &mut Vec<u8>, write: impl FnOnce(&mut Line)) {
    let mut room = [0; ANSWER_ROOM];
    let mut answer = Line::new(&mut room);
    write(&mut answer);
    answer.push(b"\n");
    let length = answer.length();
    out.extend_from_slice(&room[..length]);
}

pub fn number(letter: &[u8], number: u8, answer: &mut Line) {
    answer.push(letter);
    answer.integer(number.into());
}

/// The answer to a line of no kind that a program knows.
pub fn no_line(answer: &mut Line) {
    answer.push(b"X");
}
