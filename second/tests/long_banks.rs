//! Banks with more words than their scheme needs: what is taken, both ways, and what 14, 15, 21 and 22
//! refuse, and where.

mod common;

use common::{assert_pair, assert_pair_in, bytes, decode, encode_in, raw, reply, TAGS};
use common::{refused_bank, refused_text, refused_text_in};
use second::tables::SCHEMES;
use second::Refusal;

const ROW_1: &str = "urn:epc:tag:sgtin-96:3.0614141.812345.6789";
const ROW_6: &str = "urn:epc:tag:sgtin-198:0.0614141.812345.a.b";

/// Word counts that no bank can have.
const TOO_MANY: [usize; 8] = [32, 33, 63, 64, 255, 256, 65_536, usize::MAX];

/// `own` is the word count of its scheme.
struct Tag {
    own: usize,
    text: String,
    code: Vec<u8>,
}

impl Tag {
    /// The bank of so many words: the code, or as much of it as they hold, then zeros.
    fn bank(&self, words: usize) -> Vec<u8> {
        let mut bank = [&((words as u16) << 11).to_be_bytes(), &self.code[..]].concat();
        bank.resize(2 + 2 * words, 0);
        bank
    }
}

fn tags() -> impl Iterator<Item = Tag> {
    TAGS.iter().map(|(own, rest, code)| Tag {
        own: (*own).into(),
        text: format!("urn:epc:tag:{rest}"),
        code: bytes(code),
    })
}

/// The bank with a one at each of these addresses.
fn ones(mut bank: Vec<u8>, addresses: &[usize]) -> Vec<u8> {
    for address in addresses {
        let bit = address - 0x10;
        bank[bit / 8] |= 0x80 >> (bit % 8);
    }
    bank
}

/// The address of the first bit of a word, counted from 1.
fn address(word: usize) -> usize {
    0x10 + 16 * word
}

/// Row 1 as the converter writes it, into a chip of 8 words.
#[test]
fn row_1_in_8_words() {
    let bank = bytes("4000 3074257BF7194E4000001A85 0000 0000");
    assert_pair_in(8, ROW_1, &bank);
    assert_eq!(raw(&bank), Ok("urn:epc:raw:128.x3074257BF7194E4000001A8500000000".into()));
}

#[test]
fn row_6_in_31_words() {
    let bank = bytes(
        "F800 3614 257B F719 4E70 AEC4 0000 0000 0000 0000 0000 0000 0000 0000 0000 0000
         0000 0000 0000 0000 0000 0000 0000 0000 0000 0000 0000 0000 0000 0000 0000 0000",
    );
    assert_eq!(bank.len(), 64);
    assert_pair_in(31, ROW_6, &bank);
}

/// 14 and 22 up to the scheme's own count, which is what 0 asks for; each count from there on is written,
/// and read with the same text.
#[test]
fn every_word_count_of_every_scheme() {
    for tag in tags() {
        for words in 1..tag.own {
            assert_eq!(refused_bank(&tag.bank(words)), (14, 0x10), "{}, {words}", tag.text);
            assert_eq!(refused_text_in(words, tag.text.as_bytes()), (22, 0));
        }
        assert_pair(&tag.text, &tag.bank(tag.own));
        for words in tag.own..=31 {
            assert_pair_in(words, &tag.text, &tag.bank(words));
        }
    }
}

/// A text and the word count that is written, which 0 is not.
#[test]
fn no_two_pairs_share_a_bank() {
    let pairs = tags().flat_map(|tag| (tag.own..=31).map(move |words| (words, tag.text.clone())));
    let banks: Vec<_> = pairs.map(|(words, text)| encode_in(words, text.as_bytes())).collect();
    assert_eq!(banks.len(), 11 * 26 + 24 + 2 * 21 + 2 * 19);
    for (place, bank) in banks.iter().enumerate() {
        assert!(bank.is_ok() && !banks[..place].contains(bank));
    }
}

#[test]
fn both_ends_of_each_further_word() {
    for tag in tags() {
        for words in tag.own + 1..=31 {
            for word in tag.own + 1..=words {
                for one in [address(word), address(word) + 15] {
                    assert_eq!(refused_bank(&ones(tag.bank(words), &[one])), (15, one));
                }
            }
        }
    }
}

/// Alone, with the next, with the bank's last, and with all after it.
#[test]
fn the_first_bit_that_is_one() {
    let end = address(32);
    for tag in tags() {
        for one in address(tag.own + 1)..end {
            let place = |addresses: &[usize]| refused_bank(&ones(tag.bank(31), addresses));
            let all: Vec<usize> = (one..end).collect();
            assert_eq!(place(&[one]), (15, one));
            assert_eq!(place(&all[..all.len().min(2)]), (15, one));
            assert_eq!(place(&[one, end - 1]), (15, one));
            assert_eq!(place(&all), (15, one));
        }
    }
}

/// Fill bits and table B's 24 zero bits stand before the further words.
#[test]
fn zeros_of_the_scheme_s_own_words() {
    let mut seen = 0;
    for (tag, scheme) in tags().zip(&SCHEMES) {
        assert_eq!(tag.code[0], scheme.header);
        for one in 0x20 + scheme.zero_from()..address(tag.own + 1) {
            for words in [tag.own + 1, 31] {
                assert_eq!(refused_bank(&ones(tag.bank(words), &[one])), (15, one));
                let both = ones(tag.bank(words), &[one, address(tag.own + 1)]);
                assert_eq!(refused_bank(&both), (15, one));
            }
            seen += 1;
        }
    }
    assert_eq!(seen, 3 * 24 + 10 + 13 + 6 + 2 + 15);
}

/// A 96-bit code over the code of a gdti-174, whose last five words are left; the first of them is 67D0.
#[test]
fn bits_left_from_an_older_code() {
    let left = "5800 3074257BF7194E4000001A85 67D0C18B266D1AB66EE0";
    assert_eq!(refused_bank(&bytes(left)), (15, 0x81));
    assert_eq!(refused_bank(&bytes(&left.replace("67D0", "0000"))), (15, 0x90));
}

#[test]
fn control_fields() {
    const SET: [usize; 9] = [0x15, 0x18, 0x19, 0x1A, 0x1B, 0x1C, 0x1D, 0x1E, 0x1F];
    for tag in tags() {
        let text = tag.text.replace("tag:", "tag:[umi=1][att=xFF]:");
        for words in [tag.own + 1, 31] {
            assert_pair_in(words, &text, &ones(tag.bank(words), &SET));
        }
    }
}

#[test]
fn bytes_after_the_last_word() {
    for tag in tags() {
        for words in tag.own..=31 {
            let longer = [tag.bank(words), vec![0xFF; 9]].concat();
            assert_eq!(decode(&longer).as_ref(), Ok(&tag.text));
        }
    }
}

/// What comes before 15 and what comes after it, with zeros in the further words and with their last bit.
#[test]
fn other_numbers_of_long_banks() {
    for (number, place, bank) in [
        (11, 0x17, "4100 3074257BF7194E4000001A85"),
        (12, 0x16, "4200 3074257BF7194E4000001A85"),
        (13, 0x20, "4000 FF74257BF7194E4000001A85"),
        (16, 0x2B, "4000 307C257BF7194E4000001A85"),
        (17, 0x2E, "4000 3003FFFFFFFFFC0000000000"),
        (18, 0x56, "4000 330000000000044000000005"),
        (19, 0x57, "4000 3F76451FD612640000000000"),
    ] {
        let long = [bytes(bank), vec![0; 4]].concat();
        assert_eq!(refused_bank(&long), (number, place), "{bank}");
        let first = if number < 15 { (number, place) } else { (15, 0x9F) };
        assert_eq!(refused_bank(&ones(long, &[0x9F])), first, "{bank}");
    }
}

#[test]
fn refusal_21_whatever_the_text() {
    for words in TOO_MANY {
        for text in ["", "u", "urn:epc:tag:", "urn:epc:tag:[umi=0]:", "urn:epc:tag:gid-96:1.2.x"] {
            assert_eq!(refused_text_in(words, text.as_bytes()), (21, 0), "{text}");
        }
        for tag in tags() {
            assert_eq!(refused_text_in(words, tag.text.as_bytes()), (21, 0));
        }
    }
}

#[test]
fn refusal_1_comes_before_21() {
    for words in TOO_MANY.into_iter().chain([0, 1, 31]) {
        for length in [0, 1, 63] {
            let mut out = vec![0x5A; length];
            let answer = second::text_to_bank(ROW_1.as_bytes(), words, &mut out);
            assert_eq!(answer, Err(Refusal { number: 1, place: 0 }));
            assert!(out.iter().all(|&byte| byte == 0x5A));
        }
    }
}

/// Every other number of a text, whatever the word count that is asked for.
#[test]
fn refusal_22_comes_last() {
    for (number, text) in [
        (2, "urn:epc:tab:gid-96:1.2.3"),
        (20, "urn:epc:tag:[umi=0]:gid-96:1.2.3"),
        (3, "urn:epc:tag:gid-95:1.2.3"),
        (4, "urn:epc:tag:sgtin-96:8.0614141.812345.6789"),
        (5, "urn:epc:tag:sgtin-96:3.06141.812345.6789"),
        (6, "urn:epc:tag:sscc-96:3.0614141.123456789"),
        (7, "urn:epc:tag:sgtin-198:0.0614141.812345.a%2fb"),
        (8, "urn:epc:tag:sgtin-96:3.0614141.812345.274877906944"),
        (8, "urn:epc:tag:gdti-113:3.0614141.12345.000000000000000000"),
        (8, "urn:epc:tag:grai-170:3.0614141.12345.abcdefghijklmnopq"),
    ] {
        let refused = refused_text(text.as_bytes());
        assert_eq!(refused.0, number, "{text}");
        for words in 1..=31 {
            assert_eq!(refused_text_in(words, text.as_bytes()), refused, "{text}, {words}");
        }
    }
}

#[test]
fn refusal_22_with_control_fields() {
    let text = ROW_1.replace("tag:", "tag:[umi=1][att=xFF]:");
    assert_eq!(refused_text_in(5, text.as_bytes()), (22, 0));
    assert_eq!(encode_in(6, text.as_bytes()), Ok(bytes("34FF 3074257BF7194E4000001A85")));
}

#[test]
fn the_program_writes_the_short_bank() {
    let text = reply(b"40003074257BF7194E4000001A8500000000");
    assert_eq!(text, format!("T {ROW_1}"));
    assert_eq!(reply(ROW_1.as_bytes()), "B 30003074257BF7194E4000001A85");
    assert_eq!(
        reply(b"40003074257BF7194E4000001A8500000001"),
        "R 15 urn:epc:raw:128.x3074257BF7194E4000001A8500000001"
    );
    assert_eq!(reply(b"28003074257BF7194E400000"), "R 14 urn:epc:raw:80.x3074257BF7194E400000");
}
