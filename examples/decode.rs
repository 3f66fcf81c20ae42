//! A bank, given in hexadecimal, or the text of a tag and how many words its bank is to have, if not the fewest:
//! `decode 30003074257BF7194E4000001A85`, `decode urn:epc:tag:gid-96:1.2.3`, `decode urn:epc:tag:gid-96:1.2.3 8`.
//! Prints the number of the first broken rule, 0 for none. With 0: the tag's text and how many words its bank has, or the bank. With
//! another: the place, and for a bank the line on the screen, if there is one to show; for a text the text, and a mark under the
//! character at the place. 21 and 22 refuse the number of words, not the text: that number stands for the place, without a mark.
mod shown;
mod tagcodec;

use shown::{arguments, from_decimal, printable, refused};
use tagcodec::{Answer, Refusal, Written};

fn from_hex(text: &[u8]) -> Option<Vec<u8>> {
    let digit = |c: &u8| b"0123456789ABCDEF".iter().position(|d| d == c);
    let digits: Vec<usize> = text.iter().map(digit).collect::<Option<_>>()?;
    let byte = |pair: &[usize]| (pair.len() == 2).then(|| (16 * pair[0] + pair[1]) as u8);
    digits.chunks(2).map(byte).collect()
}

fn hex(bytes: &[u8]) -> String {
    bytes.iter().map(|byte| format!("{byte:02X}")).collect()
}

fn show_bank(bank: &[u8]) {
    let (mut tag, mut raw) = ([0; tagcodec::TEXT_ROOM], [0; tagcodec::TEXT_ROOM]);
    let (shown, line) = (tagcodec::bank_to_text(bank, &mut tag), tagcodec::raw_line(bank, &mut raw));
    let number = shown.map_or_else(|refusal| refusal.number, |_| 0);
    let length = |answer: Answer| answer.map_or(0, |written| written.length);
    let screen = printable(tagcodec::screen(&tag[..length(shown)], &raw[..length(line)], number));
    let said = match shown {
        Ok(Written { words, .. }) => format!("0 {screen} in {words} words"),
        Err(Refusal { number: 9, place }) => format!("9 at {place} bytes"),
        Err(Refusal { number, place }) => format!("{number} at {place:X}h {screen}"),
    };
    println!("{}", said.trim_end());
}

fn show_text(text: &[u8], words: u32) {
    let mut bank = [0; tagcodec::BANK_ROOM];
    match tagcodec::text_to_bank(text, words, &mut bank) {
        Ok(Written { length, .. }) => println!("0 {}", hex(&bank[..length])),
        Err(Refusal { number: number @ (21 | 22), .. }) => println!("{number} at {words} words"),
        Err(refusal) => println!("{}", refused(refusal, text)),
    }
}

/// Shows what the arguments ask for; None if they are neither a bank nor a text, alone or with its words.
fn show(given: &[Vec<u8>]) -> Option<()> {
    match given {
        [text] if text.starts_with(b"urn:") => show_text(text, 0),
        [text, words] if text.starts_with(b"urn:") => show_text(text, from_decimal(words)?),
        [bank] => show_bank(&from_hex(bank)?),
        _ => return None,
    }
    Some(())
}

fn main() {
    let mut given = arguments();
    if given.is_empty() {
        given.push("30003074257BF7194E4000001A85".into());
    }
    if show(&given).is_none() {
        let given = printable(&given.join(&b' '));
        eprintln!(
            "decode: a text that begins with urn:, alone or with a word count below 2^32, or an even number of upper-case hex \
             digits: {given}"
        );
        std::process::exit(2);
    }
}
