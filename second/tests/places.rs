//! The place of every refusal: where the part that was refused begins.

mod common;

use common::{bytes, refused_bank, refused_text};
use second::tables::*;

fn text(rest: &str) -> (u8, usize) {
    refused_text(format!("urn:epc:tag:{rest}").as_bytes())
}

fn bank(hex: &str) -> (u8, usize) {
    refused_bank(&bytes(hex))
}

#[test]
fn known_tags() {
    assert_eq!(bank("3000 330000000000044000000005"), (18, 0x56));
    assert_eq!(bank("3000 3174257BF4499602D2000001"), (15, 0x7F));
    assert_eq!(text("sgtin-96:3.0614141.812345.274877906944"), (8, 38));
    assert_eq!(text("sgtin-96:3.0614141.812345.007"), (7, 38));
    assert_eq!(text("sgtin-198:0.0614141.812345.a%2fb"), (7, 39), "the part's, not the escape's");
    assert_eq!(text("sgtin-198:0.0614141.812345.%41"), (7, 39));
    assert_eq!(text("sgtin-96:8.0614141.812345.6789"), (4, 21));
    assert_eq!(bank("3000 307C257BF7194E4000001A85"), (16, 0x2B));
    assert_eq!(bank("3000 3003FFFFFFFFFC0000000000"), (17, 0x2E));
    assert_eq!(bank("3200 3074257BF7194E4000001A85"), (12, 0x16));
    assert_eq!(bank("3100 3074257BF7194E4000001A85"), (11, 0x17));
    assert_eq!(bank("0000 3074257BF7194E4000001A85"), (10, 0x10));
    assert_eq!(bank("3000 3614257BF7194E70AEC4 00000000000000000000000000000000"), (14, 0x10));
}

/// Control fields that a text may have; tests/control_fields.rs has the places of those that are wrong.
const FIELDS: [&str; 4] = ["", "[umi=1]:", "[att=x01]:", "[umi=1][att=xFF]:"];

#[test]
fn start_and_name() {
    for text in ["", "u", "urn:epc:tag", "urn:epc:tab:gid-96:1.2.3", "x"] {
        assert_eq!(refused_text(text.as_bytes()), (2, 0), "{text}");
    }
    for rest in ["", ":", "gid-96", "gid-95:1.2.3", "gid-96.1.2.3"] {
        let places = FIELDS.map(|fields| text(&format!("{fields}{rest}")));
        assert_eq!(places, [(3, 12), (3, 20), (3, 22), (3, 29)], "{rest}");
    }
}

/// The numbers of a scheme's parts whose form is wrong.
fn numbers(scheme: &Scheme) -> &'static [u8] {
    match scheme.name {
        b"gid-96" => &[5, 6, 7],
        b"giai-96" => &[4, 5, 7],
        b"sscc-96" | b"gsrn-96" | b"gsrnp-96" => &[4, 5, 6],
        _ => &[4, 5, 6, 7],
    }
}

/// Parts that are taken.
fn parts(scheme: &Scheme, row: &Row) -> Vec<String> {
    let part = |part: &Part| match part {
        Part::Prefix => "1".repeat(row.prefix.digits),
        Part::Reference(table) => "2".repeat(row.reference(*table).digits),
        _ => "7".to_string(),
    };
    scheme.parts.iter().map(part).collect()
}

/// Every part in turn with another byte, missing at the text's end, without what follows it, and for 8 too
/// large: the place is the length of what stands before it, with any control fields.
fn assert_places(scheme: &Scheme, parts: &[String]) {
    FIELDS.iter().for_each(|fields| assert_places_behind(fields, scheme, parts));
}

fn assert_places_behind(fields: &str, scheme: &Scheme, parts: &[String]) {
    let mut before = format!("urn:epc:tag:{fields}{}:", scheme.name.escape_ascii());
    for (i, &number) in numbers(scheme).iter().enumerate() {
        let refused = |rest: &str| refused_text(format!("{before}{rest}").as_bytes());
        let place = before.len();
        assert_eq!(refused(""), (number, place), "{before}");
        assert_eq!(refused(&[&["#".into()], &parts[i + 1..]].concat().join(".")), (number, place));
        if i + 1 < parts.len() {
            assert_eq!(refused(&parts[i]), (number, place), "{before} and no dot");
        } else if number == 7 {
            assert_eq!(refused(&"9".repeat(40)), (8, place), "{before}");
        }
        before += &format!("{}.", parts[i]);
    }
}

#[test]
fn parts_of_every_scheme_and_row() {
    for scheme in &SCHEMES {
        for row in &ROWS {
            let parts = parts(scheme, row);
            assert_eq!(parts.len(), numbers(scheme).len());
            assert_places(scheme, &parts);
        }
    }
}

#[test]
fn integers_of_every_length() {
    let gid = Scheme::by_name(b"gid-96").unwrap();
    for first in 1..=9 {
        for second in 1..=8 {
            assert_places(gid, &["1".repeat(first), "1".repeat(second), "3".into()]);
        }
    }
    let cpi = Scheme::by_name(b"cpi-96").unwrap();
    for row in &ROWS {
        for digits in 1..=15 - row.prefix.digits {
            let prefix = "1".repeat(row.prefix.digits);
            assert_places(cpi, &["7".into(), prefix, "2".repeat(digits), "3".into()]);
        }
    }
}

/// A bank of a scheme with zeros behind its partition value.
fn zeros(scheme: &Scheme, partition: usize) -> Vec<u8> {
    let mut bank = vec![0; 2 + 2 * scheme.words];
    bank[0] = (scheme.words << 3) as u8;
    bank[2] = scheme.header;
    bank[3] = (partition << 2) as u8;
    bank
}

/// The bank with ones from an address on, and before another.
fn ones(mut bank: Vec<u8>, from: usize, before: usize) -> Vec<u8> {
    for address in from..before {
        let bit = address - 0x10;
        bank[bit / 8] |= 0x80 >> (bit % 8);
    }
    bank
}

#[test]
fn lengths_and_word_counts() {
    assert_eq!(refused_bank(&[]), (9, 0));
    for words in 0..32u8 {
        assert_eq!(refused_bank(&[words << 3]), (9, 1));
        for length in 2..2 + 2 * usize::from(words) {
            let bank = [&[words << 3][..], &vec![0xFF; length - 1]].concat();
            assert_eq!(refused_bank(&bank), (9, length));
        }
    }
    assert_eq!(bank("0000"), (10, 0x10));
    assert_eq!(bank("07FF 3074"), (10, 0x10));
}

#[test]
fn control_bits_and_headers() {
    for scheme in &SCHEMES {
        let good = zeros(scheme, 0);
        assert_eq!(refused_bank(&ones(good.clone(), 0x15, 0x20)), (11, 0x17));
        for address in (0x15..0x20).filter(|&address| address != 0x17) {
            let bank = ones(ones(good.clone(), 0x16, 0x17), address, address + 1);
            assert_eq!(refused_bank(&bank), (12, 0x16));
        }
        let fewer = [&[8 * scheme.words as u8 - 8][..], &good[1..]].concat();
        assert_eq!(refused_bank(&fewer), (14, 0x10));
        assert_eq!(refused_bank(&ones(fewer, 0x18, 0x20)), (14, 0x10));
    }
    assert_eq!(bank("0800 0000"), (13, 0x20));
    assert_eq!(bank("3000 FF74257BF7194E4000001A85"), (13, 0x20));
}

#[test]
fn the_first_bit_that_is_one() {
    let mut seen = 0;
    for scheme in &SCHEMES {
        let end = 0x20 + 16 * scheme.words;
        for address in 0x20 + scheme.zero_from()..end {
            let good = zeros(scheme, 7);
            assert_eq!(refused_bank(&ones(good.clone(), address, address + 1)), (15, address));
            assert_eq!(refused_bank(&ones(good.clone(), address, end)), (15, address));
            let both = ones(ones(good, address, address + 1), end - 1, end);
            assert_eq!(refused_bank(&both), (15, address));
            seen += 1;
        }
    }
    assert_eq!(seen, 3 * 24 + 10 + 13 + 6 + 2 + 15);
}

#[test]
fn fields_of_every_scheme_and_row() {
    for scheme in SCHEMES.iter().filter(|scheme| scheme.name != b"gid-96") {
        assert_eq!(refused_bank(&zeros(scheme, 7)), (16, 0x2B));
        for (partition, row) in ROWS.iter().enumerate() {
            let reference = 0x2E + row.prefix.bits;
            let prefix = ones(zeros(scheme, partition), 0x2E, reference);
            assert_eq!(refused_bank(&prefix), (17, 0x2E));
            let (bits, last) = match scheme.parts[2..] {
                [Part::Reference(table), ref last @ ..] => (row.reference(table).bits, last),
                [Part::RowInteger(IntegerTable::Cpi), ref last @ ..] => {
                    (51 - row.prefix.bits, last)
                }
                _ => continue,
            };
            let too_large = ones(zeros(scheme, partition), reference, reference + bits);
            assert_eq!(refused_bank(&too_large), (18, reference));
            if let [Part::String { bits } | Part::NumericString(NumericString { bits, .. })] = *last
            {
                assert_strings(zeros(scheme, partition), 0x20 + scheme.bits - bits, bits);
            }
        }
    }
}

/// Empty, all ones, and wrong in its last group: the place is the string's first bit.
fn assert_strings(bank: Vec<u8>, first: usize, bits: usize) {
    assert_eq!(refused_bank(&bank), (19, first));
    assert_eq!(refused_bank(&ones(bank.clone(), first, first + bits)), (19, first));
    assert_eq!(refused_bank(&ones(bank, first + bits - 1, first + bits)), (19, first));
}
