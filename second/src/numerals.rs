//! Decimal and hexadecimal digits, read.

use crate::tables::{refusal, Integer, NumericString};

/// The most digits that any integer of ours can have; their value fits 64 bits.
const MOST_DIGITS: usize = 19;

/// The value of a zero-filled number of at most 19 digits.
pub fn padded(text: &[u8]) -> Option<u64> {
    debug_assert!(text.len() <= MOST_DIGITS);
    all_digits(text).then(|| value(text))
}

/// The value of a number without leading zeros, or its refusal: form before size.
pub fn integer(text: &[u8], kind: Integer) -> Result<u64, u8> {
    if !is_integer(text) {
        return Err(kind.form);
    }
    if text.len() > MOST_DIGITS {
        return Err(kind.size);
    }
    Some(value(text)).filter(|&value| value < kind.limit).ok_or(kind.size)
}

/// The value of a 1 and the digits of a numeric string, or its refusal: form before size.
pub fn numeric_string(text: &[u8], kind: NumericString) -> Result<u64, u8> {
    if text.is_empty() || !all_digits(text) {
        return Err(refusal::LAST_FORM);
    }
    if text.len() > kind.most {
        return Err(refusal::LAST_SIZE);
    }
    Ok(10u64.pow(text.len() as u32) + value(text))
}

/// Whether a text is a number without leading zeros, of any size.
pub fn is_integer(text: &[u8]) -> bool {
    let leading_zero = text.len() > 1 && text[0] == b'0';
    !text.is_empty() && !leading_zero && all_digits(text)
}

pub fn all_digits(text: &[u8]) -> bool {
    text.iter().all(u8::is_ascii_digit)
}

fn value(digits: &[u8]) -> u64 {
    digits.iter().fold(0, |value, digit| value * 10 + u64::from(digit - b'0'))
}

/// The value of an upper-case hex digit.
pub fn hex_value(digit: u8) -> Option<u8> {
    match digit {
        b'0'..=b'9' => Some(digit - b'0'),
        b'A'..=b'F' => Some(digit - b'A' + 10),
        _ => None,
    }
}

/// A byte as two upper-case hex digits.
pub fn hex_digits(byte: u8) -> [u8; 2] {
    const DIGITS: &[u8; 16] = b"0123456789ABCDEF";
    [DIGITS[(byte >> 4) as usize], DIGITS[(byte & 15) as usize]]
}
