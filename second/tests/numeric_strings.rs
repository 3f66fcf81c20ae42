//! Numeric strings: a 1 before the digits, and the whole one integer.

mod common;

use common::{assert_pair, bytes, decode, encode};

/// A scheme with a numeric string, and the string's own bits and most digits.
struct Kind {
    name: &'static str,
    header: u8,
    bits: usize,
    words: usize,
    width: usize,
    most: usize,
}

const KINDS: [Kind; 2] = [
    Kind { name: "gdti-113", header: 0x3A, bits: 113, words: 8, width: 58, most: 17 },
    Kind { name: "sgcn-96", header: 0x3F, bits: 96, words: 6, width: 41, most: 12 },
];

/// Prefix and reference of each row, zeros only; a prefix of 12 digits leaves no reference.
const ROWS: [&str; 7] = [
    "000000000000.",
    "00000000000.0",
    "0000000000.00",
    "000000000.000",
    "00000000.0000",
    "0000000.00000",
    "000000.000000",
];

impl Kind {
    fn text(&self, partition: usize, digits: &str) -> String {
        format!("urn:epc:tag:{}:0.{}.{digits}", self.name, ROWS[partition])
    }

    /// The bank whose parts are zero but for the partition value and the string's integer.
    fn bank(&self, partition: usize, integer: u64) -> Vec<u8> {
        assert_eq!(integer >> self.width, 0);
        let code = u128::from(self.header) << 120
            | (partition as u128) << 114
            | u128::from(integer) << (128 - self.bits);
        let mut bank = ((self.words as u16) << 11).to_be_bytes().to_vec();
        bank.extend(&code.to_be_bytes()[..2 * self.words]);
        bank
    }

    fn assert_taken(&self, digits: &str) {
        let integer = format!("1{digits}").parse().unwrap();
        for partition in 0..7 {
            assert_pair(&self.text(partition, digits), &self.bank(partition, integer));
        }
    }

    fn assert_text_refused(&self, number: u8, digits: &str) {
        for partition in 0..7 {
            let text = self.text(partition, digits);
            assert_eq!(encode(&text), Err(number), "{text}");
        }
    }

    fn assert_bank_refused(&self, integer: u64) {
        for partition in 0..7 {
            let answer = decode(&self.bank(partition, integer));
            assert_eq!(answer, Err(19), "{}: {integer}", self.name);
        }
    }
}

#[test]
fn the_standard_s_examples() {
    let text = "urn:epc:tag:sgcn-96:3.9521141.67890.04711";
    assert_pair(text, &bytes("3000 3F76451FD612640000019907"));
    let text = "urn:epc:tag:sgcn-96:3.4012345.67890.04711";
    assert_pair(text, &bytes("3000 3F74F4E4E612640000019907"));
}

#[test]
fn every_count_of_digits_with_leading_zeros_kept() {
    for kind in KINDS {
        for count in 1..=kind.most {
            kind.assert_taken(&"0".repeat(count));
            kind.assert_taken(&"9".repeat(count));
            kind.assert_taken(&format!("{:0>count$}", 1));
            kind.assert_taken(&format!("{:0<count$}", 1));
            kind.assert_taken(&"04711235803112247"[..count]);
        }
    }
}

#[test]
fn zeros_of_different_counts_are_different_strings() {
    for kind in KINDS {
        let banks: Vec<_> = (1..=kind.most)
            .map(|count| encode(&kind.text(5, &"0".repeat(count))).unwrap())
            .collect();
        for (place, bank) in banks.iter().enumerate() {
            assert!(!banks[..place].contains(bank));
        }
    }
}

#[test]
fn refusal_7_no_digits_or_another_byte_anywhere() {
    for kind in KINDS {
        for digits in
            ["", "a", "1a", "a1", "-1", "+1", " 1", "1 ", "1.", ".1", "1.2", "%31", "\u{b2}"]
        {
            kind.assert_text_refused(7, digits);
        }
        for count in [2, kind.most, kind.most + 1, 30] {
            for place in 0..count {
                for other in ["x", ".", "/", ":", "\0"] {
                    let mut digits = "7".repeat(count);
                    digits.replace_range(place..place + 1, other);
                    kind.assert_text_refused(7, &digits);
                }
            }
        }
    }
}

#[test]
fn refusal_8_more_digits_than_the_string_holds() {
    for kind in KINDS {
        for count in [kind.most + 1, kind.most + 2, 18, 19, 20, 21, 30, 39, 40, 100] {
            for digit in ["0", "1", "9"] {
                kind.assert_text_refused(8, &digit.repeat(count));
            }
        }
    }
}

#[test]
fn refusal_19_no_1_in_front_or_nothing_behind_it() {
    for kind in KINDS {
        (0..10).for_each(|integer| kind.assert_bank_refused(integer));
        for count in 1..=kind.most as u32 {
            let one = 10u64.pow(count);
            for first in (2..10).filter(|first| (first * one) >> kind.width == 0) {
                kind.assert_bank_refused(first * one);
            }
            kind.assert_bank_refused(one - 1);
            kind.assert_bank_refused(2 * one);
        }
        kind.assert_bank_refused((1 << kind.width) - 1);
    }
}

#[test]
fn the_smallest_and_the_largest_integer() {
    for kind in KINDS {
        let largest = 2 * 10u64.pow(kind.most as u32) - 1;
        for partition in 0..7 {
            assert_eq!(decode(&kind.bank(partition, 10)), Ok(kind.text(partition, "0")));
            let nines = kind.text(partition, &"9".repeat(kind.most));
            assert_eq!(decode(&kind.bank(partition, largest)), Ok(nines));
        }
    }
}

#[test]
fn the_numbers_before_it_come_first() {
    let gdti = |rest: &str| encode(&format!("urn:epc:tag:gdti-113:{rest}"));
    assert_eq!(gdti("8.0614141.12345.x"), Err(4));
    assert_eq!(gdti("3.06141.12345.x"), Err(5));
    assert_eq!(gdti("3.0614141.1234.x"), Err(6));
    assert_eq!(gdti("3.0614141.12345"), Err(6));
    assert_eq!(gdti("3.952656789012.0.1"), Err(6));
    let sgcn = |bank: &str| decode(&bytes(bank));
    assert_eq!(sgcn("2800 3F76451FD61264000001"), Err(14));
    assert_eq!(sgcn("3000 3F7E451FD612640000000000"), Err(16));
    assert_eq!(sgcn("3000 3F77FFFFFE12640000000000"), Err(17));
    assert_eq!(sgcn("3000 3F76451FD7FFFE0000000000"), Err(18));
    assert_eq!(sgcn("3000 3F76451FD612640000000000"), Err(19));
}
