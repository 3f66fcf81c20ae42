//! Reads lines, writes the answer to each: those of tagline, or with the argument `identity` those of
//! identity. Memory doesn't grow with the input.

use std::io::{self, BufRead, BufReader, BufWriter, Read, Write};

/// A line of so many bytes has the same answer whatever follows.
const KEPT: u64 = second::tables::TEXT_LINE as u64 + 1;
const BUFFER: usize = 1 << 16;

/// Adds the answer to a line.
type Reply = fn(&[u8], &mut Vec<u8>);

fn main() -> io::Result<()> {
    match std::env::args().nth(1).as_deref() {
        None => answer_lines(second::reply),
        Some("identity") => answer_lines(second::identity_reply),
        Some(_) => Err(io::Error::other("usage: second [identity] <LINES")),
    }
}

fn answer_lines(reply: Reply) -> io::Result<()> {
    let mut input = BufReader::with_capacity(BUFFER, io::stdin().lock());
    let mut output = BufWriter::with_capacity(BUFFER, io::stdout().lock());
    let (mut line, mut answer) = (Vec::new(), Vec::new());
    while next_line(&mut input, &mut line)? {
        answer.clear();
        reply(&line, &mut answer);
        output.write_all(&answer)?;
    }
    output.flush()
}

/// The next line without its line feed, or its first bytes; false where the input has ended.
fn next_line(input: &mut impl BufRead, line: &mut Vec<u8>) -> io::Result<bool> {
    line.clear();
    let read = input.by_ref().take(KEPT).read_until(b'\n', line)?;
    if line.last() == Some(&b'\n') {
        line.pop();
    } else if line.len() as u64 == KEPT {
        input.skip_until(b'\n')?;
    }
    Ok(read > 0)
}
