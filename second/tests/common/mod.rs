//! The calls as the tests make them: every call is held to what it may do with its output.

#![allow(dead_code)]

pub mod vectors;

use second::tables::{BANK_ROOM, SMALLEST, TEXT_ROOM};
use second::{Answer, Refusal, Written};

/// A tag of every scheme: its word count, its text from the name on, and its code.
pub const TAGS: [(u16, &str, &str); 16] = [
    (6, "sgtin-96:3.9521141.112345.400", "3076451FD46DB64000000190"),
    (13, "sgtin-198:0.0614141.812345.a.b", "3614257BF7194E70AEC400000000000000000000000000000000"),
    (6, "sscc-96:0.952012.03456789123", "311BA1B300CE0A6A83000000"),
    (6, "sgln-96:3.9521141.12345.5678", "3276451FD46072000000162E"),
    (
        13,
        "sgln-195:3.9521141.12345.32a%2Fb",
        "3976451FD46072CD9615F8800000000000000000000000000000",
    ),
    (6, "grai-96:3.9521141.12345.5678", "3376451FD40C0E400000162E"),
    (11, "grai-170:3.9521141.12345.32a%2Fb", "3776451FD40C0E59B2C2BF1000000000000000000000"),
    (6, "giai-96:3.9521141.5678", "3476451FD40000000000162E"),
    (6, "gsrn-96:3.9521141.1234567890", "2D76451FD4499602D2000000"),
    (6, "gsrnp-96:3.9521141.1234567890", "2E76451FD4499602D2000000"),
    (6, "gdti-96:3.9521141.12345.5678", "2C76451FD46072000000162E"),
    (
        11,
        "gdti-174:3.9521141.98765.ABCDefgh012345678",
        "3E76451FD7039B061438997367D0C18B266D1AB66EE0",
    ),
    (6, "gid-96:952056.2718.1414", "3500E86F8000A9E000000586"),
    (8, "gdti-113:3.0614141.12345.0", "3A74257BF46072000000000000050000"),
    (6, "sgcn-96:3.9521141.67890.04711", "3F76451FD612640000019907"),
    (6, "cpi-96:3.9521141.98765.12345", "3C76451FD400C0E680003039"),
];

pub fn encode(text: &str) -> Result<Vec<u8>, u8> {
    encode_bytes(text.as_bytes())
}

pub fn encode_bytes(text: &[u8]) -> Result<Vec<u8>, u8> {
    encode_in(SMALLEST, text).map_err(|refusal| refusal.number)
}

/// The bank of a text in so many words. The answer's word count is the bank's.
pub fn encode_in(words: usize, text: &[u8]) -> Result<Vec<u8>, Refusal> {
    let (bank, words) = checked(BANK_ROOM, |out| second::text_to_bank(text, words, out))?;
    assert_eq!((words, bank.len()), (word_count(&bank), 2 + 2 * words));
    Ok(bank)
}

pub fn decode(bank: &[u8]) -> Result<String, u8> {
    shown(tag_text(bank))
}

pub fn raw(bank: &[u8]) -> Result<String, u8> {
    shown(raw_text(bank))
}

fn tag_text(bank: &[u8]) -> Result<Vec<u8>, Refusal> {
    counted(bank, checked(TEXT_ROOM, |out| second::bank_to_text(bank, out)))
}

fn raw_text(bank: &[u8]) -> Result<Vec<u8>, Refusal> {
    counted(bank, checked(TEXT_ROOM, |out| second::raw_line(bank, out)))
}

/// What was written. The answer's word count is the bank's.
fn counted(bank: &[u8], answer: Result<(Vec<u8>, usize), Refusal>) -> Result<Vec<u8>, Refusal> {
    answer.map(|(text, words)| {
        assert_eq!(words, word_count(bank));
        text
    })
}

/// The word count in a bank's control word.
pub fn word_count(bank: &[u8]) -> usize {
    (bank[0] >> 3).into()
}

/// The identity of a tag's text. The answer has no word count.
pub fn identity_of(tag: &[u8]) -> Result<String, Refusal> {
    without_words(checked(TEXT_ROOM, |out| second::tag_to_identity(tag, out)))
}

/// The tag's text of an identity and a filter. The answer has no word count, and a refusal no place.
pub fn tag_of(identity: &[u8], filter: u32) -> Result<String, u8> {
    let answer = checked(TEXT_ROOM, |out| second::identity_to_tag(identity, filter, out));
    without_words(answer).map_err(|Refusal { number, place }| {
        assert_eq!(place, 0);
        number
    })
}

fn without_words(answer: Result<(Vec<u8>, usize), Refusal>) -> Result<String, Refusal> {
    answer.map(|(text, words)| {
        assert_eq!(words, 0);
        String::from_utf8(text).unwrap()
    })
}

fn shown(answer: Result<Vec<u8>, Refusal>) -> Result<String, u8> {
    answer.map(|text| String::from_utf8(text).unwrap()).map_err(|refusal| refusal.number)
}

/// The number and the place of a text that is refused.
pub fn refused_text(text: &[u8]) -> (u8, usize) {
    refused_text_in(SMALLEST, text)
}

/// The same where so many words are asked for.
pub fn refused_text_in(words: usize, text: &[u8]) -> (u8, usize) {
    number_and_place(encode_in(words, text))
}

/// The number and the place of a bank that is refused; its raw line has the same, or none.
pub fn refused_bank(bank: &[u8]) -> (u8, usize) {
    let refused = number_and_place(tag_text(bank));
    match raw_text(bank) {
        Ok(_) => assert!(refused.0 > 10),
        raw => assert_eq!(number_and_place(raw), refused),
    }
    refused
}

fn number_and_place(answer: Result<Vec<u8>, Refusal>) -> (u8, usize) {
    let Refusal { number, place } = answer.expect_err("a refusal");
    (number, place)
}

/// What a call writes, and the word count it gives, the same with any output that is large enough: what
/// was there stays past the length written, and all of it after a refusal.
fn checked(room: usize, call: impl Fn(&mut [u8]) -> Answer) -> Result<(Vec<u8>, usize), Refusal> {
    let answer = written(vec![0x00; room], &call);
    assert_eq!(answer, written(vec![0xFF; room], &call));
    assert_eq!(answer, written(vec![0xA5; room + 37], &call));
    answer
}

fn written(
    mut out: Vec<u8>,
    call: impl Fn(&mut [u8]) -> Answer,
) -> Result<(Vec<u8>, usize), Refusal> {
    let before = out[0];
    let answer = call(&mut out);
    let length = answer.map_or(0, |written| written.length);
    assert!(out[length..].iter().all(|&byte| byte == before), "output touched past its length");
    answer.map(|Written { length, words }| (out[..length].to_vec(), words))
}

/// The bytes of hex digits; blanks are for the reader.
pub fn bytes(hex: &str) -> Vec<u8> {
    let digits: String = hex.split_whitespace().collect();
    assert_eq!(digits.len() % 2, 0, "{hex}");
    (0..digits.len() / 2)
        .map(|i| u8::from_str_radix(&digits[2 * i..2 * i + 2], 16).unwrap())
        .collect()
}

/// A text and the bank of as many words as its scheme needs, each from the other.
pub fn assert_pair(text: &str, bank: &[u8]) {
    assert_eq!(encode(text), Ok(bank.to_vec()), "{text}");
    assert_pair_in(word_count(bank), text, bank);
}

/// A text and the bank of so many words, each from the other.
pub fn assert_pair_in(words: usize, text: &str, bank: &[u8]) {
    assert_eq!(encode_in(words, text.as_bytes()), Ok(bank.to_vec()), "{text}, {words}");
    assert_eq!(decode(bank), Ok(text.to_string()));
}

/// The answer of the program tagline to a line, without the line feed.
pub fn reply(line: &[u8]) -> String {
    added(second::reply, line)
}

/// That of the program identity.
pub fn identity_reply(line: &[u8]) -> String {
    added(second::identity_reply, line)
}

fn added(reply: fn(&[u8], &mut Vec<u8>), line: &[u8]) -> String {
    let mut out = b"before".to_vec();
    reply(line, &mut out);
    let answer = String::from_utf8(out).unwrap();
    answer.strip_prefix("before").unwrap().strip_suffix('\n').unwrap().to_string()
}

/// Numbers that look random, the same in every run (xorshift64*).
pub struct Random(pub u64);

impl Random {
    pub fn any(&mut self) -> u64 {
        self.0 ^= self.0 >> 12;
        self.0 ^= self.0 << 25;
        self.0 ^= self.0 >> 27;
        self.0.wrapping_mul(0x2545_F491_4F6C_DD1D)
    }

    pub fn below(&mut self, limit: u64) -> u64 {
        ((u128::from(self.any()) * u128::from(limit)) >> 64) as u64
    }
}
