//! Every place that a refusal can have, by the tables of documents 01 and 02 and the words of requests C-12, C-13 and C-15.
use crate::place::{Place, Why};
use crate::seen::has_rows;
use second::tables::*;
use std::collections::BTreeSet;

/// How many characters `umi`, `att` and both take before the name, with the colon behind them.
const FIELDS: [usize; 3] = [8, 10, 17];

/// Word counts asked for that no bank can have.
const TOO_MANY: [u32; 5] = [32, 255, 256, 65_536, u32::MAX];

/// The row in which parts are expected behind control fields.
const MIDDLE: usize = 3;

pub fn places() -> BTreeSet<Place> {
    let mut found = BTreeSet::new();
    found.extend(TOO_MANY.map(|words| at(21, 0, Why::Asked(words))));
    found.extend([Why::Plain, Why::AtEnd].map(|why| at(2, 0, why)));
    found.extend(of_control_fields_and_names());
    found.extend(of_any_bank());
    for scheme in &SCHEMES {
        let found_here = of_words(scheme).into_iter().chain(of_further_words(scheme));
        found.extend(found_here.map(|place| Place { scheme: Some(scheme.name), ..place }));
        found.extend(of_parts_behind_fields(scheme).into_iter().map(|place| placed(scheme, MIDDLE, place)));
        for (partition, row) in ROWS.iter().enumerate() {
            let found_here = of_parts(scheme, row).into_iter().chain(of_fields(scheme, row));
            found.extend(found_here.map(|place| placed(scheme, partition, place)));
        }
    }
    found
}

/// A number at a place, of no scheme, no row and no control fields.
fn at(number: u32, place: usize, why: Why) -> Place {
    Place { scheme: None, row: None, fields: 0, number, place: place as u16, why }
}

/// 20 with a wrong field first or behind each good one, or no colon behind them; 3 without control fields and behind each.
fn of_control_fields_and_names() -> Vec<Place> {
    let mut found = vec![at(20, 12, Why::Field)];
    found.extend([Why::Plain, Why::AtEnd].map(|why| at(3, 12, why)));
    for fields in FIELDS {
        let colon = 12 + fields - 1;
        found.extend([Why::Field, Why::Plain, Why::AtEnd].map(|why| at(20, colon, why)));
        found.extend([Why::Plain, Why::AtEnd].map(|why| Place { fields, ..at(3, colon + 1, why) }));
    }
    found
}

/// The place of a scheme and, where it has rows and the number comes after the prefix, of a row.
fn placed(scheme: &Scheme, row: usize, place: Place) -> Place {
    let known = has_rows(scheme) && !matches!(place.number, 4 | 5);
    Place { scheme: Some(scheme.name), row: known.then_some(row), ..place }
}

/// Each part of a text at each offset where it can begin: wrong, missing at the text's end, and for 8 too large.
fn of_parts(scheme: &Scheme, row: &Row) -> Vec<Place> {
    let mut found = Vec::new();
    let mut offsets = BTreeSet::from([12 + scheme.name.len() + 1]);
    for part in scheme.parts {
        found.extend(offsets.iter().flat_map(|&offset| of_part(part, offset)));
        let next = |offset: &usize| lengths(part, row).map(|length| offset + length + 1).collect::<Vec<_>>();
        offsets = offsets.iter().flat_map(next).collect();
    }
    found
}

/// The same behind each control field and both, in one row and with the shortest parts before.
fn of_parts_behind_fields(scheme: &Scheme) -> Vec<Place> {
    let mut found = Vec::new();
    for fields in FIELDS {
        let mut offset = 12 + fields + scheme.name.len() + 1;
        for part in scheme.parts {
            found.extend(of_part(part, offset).into_iter().map(|place| Place { fields, ..place }));
            offset += lengths(part, &ROWS[MIDDLE]).start() + 1;
        }
    }
    found
}

fn of_part(part: &Part, offset: usize) -> Vec<Place> {
    let number = u32::from(part.form());
    let mut found = [Why::Plain, Why::AtEnd].map(|why| at(number, offset, why)).to_vec();
    found.extend((number == 7).then_some(at(8, offset, Why::Plain)));
    found
}

/// How many characters a part can have.
fn lengths(part: &Part, row: &Row) -> std::ops::RangeInclusive<usize> {
    let integer = |kind: Integer| 1..=(kind.limit - 1).ilog10() as usize + 1;
    match *part {
        Part::Filter => 1..=1,
        Part::Prefix => row.prefix.digits..=row.prefix.digits,
        Part::Reference(table) => row.reference(table).digits..=row.reference(table).digits,
        Part::RowInteger(table) => integer(row.integer(table)),
        Part::Integer(kind) => integer(kind),
        Part::String { bits } => 1..=bits / CHARACTER_BITS,
        Part::NumericString(kind) => 1..=kind.most,
    }
}

/// 9 with no byte, one, and each length that is too short for a scheme's word count or the largest; 10 to 13, 12 with bit 16h alone, with
/// each bit that a text can say, and with all of these.
fn of_any_bank() -> Vec<Place> {
    let mut found = vec![at(9, 0, Why::Plain), at(9, 1, Why::Plain)];
    for words in SCHEMES.iter().map(|scheme| scheme.words).chain([31]) {
        found.extend((2..2 + 2 * words).map(|length| at(9, length, Why::Words(words))));
    }
    found.extend([at(10, 0x10, Why::Plain), at(11, 0x17, Why::Plain), at(13, 0x20, Why::Plain)]);
    let bit = |address: u32| 1 << (0x1F - address);
    let said = || (0x15..0x20).filter(|&address| address != 0x16 && address != 0x17).map(bit);
    let others = said().chain([0, said().sum()]);
    found.extend(others.map(|others: u32| at(12, 0x16, Why::Bits(bit(0x16) | others))));
    found
}

/// 22 in one word less than the scheme needs; 14 in each word count that is less; 15 with each bit that must be zero as the first one, alone
/// and with all after it; 16.
fn of_words(scheme: &Scheme) -> Vec<Place> {
    let mut found = vec![at(22, 0, Why::Asked(scheme.words as u32 - 1))];
    found.extend((1..scheme.words).map(|words| at(14, 0x10, Why::Words(words))));
    let end = 0x20 + 16 * scheme.words;
    for address in 0x20 + scheme.zero_from()..end {
        let alone = 1 << (end - 1 - address);
        found.extend([alone, 2 * alone - 1].map(|bits| at(15, address, Why::Bits(bits))));
    }
    found.extend(has_rows(scheme).then_some(at(16, 0x2B, Why::Plain)));
    found
}

/// 15 in a bank with further words: the first and the last bit of each, alone, and with a later one for the first scheme that needs so many
/// words; the first and the last bit that must be zero before them, alone and with a later one.
fn of_further_words(scheme: &Scheme) -> Vec<Place> {
    let (start, further) = (0x20 + scheme.zero_from(), 0x20 + 16 * scheme.words);
    let end = 0x20 + 16 * MOST_WORDS;
    let mut found = Vec::new();
    let first = SCHEMES.iter().find(|other| other.words == scheme.words);
    let later = first.is_some_and(|first| first.name == scheme.name);
    for address in (further..end).filter(|address| matches!(address % 16, 0 | 15)) {
        found.push(at(15, address, Why::Ones(1)));
        found.extend((later && address < end - 1).then_some(at(15, address, Why::Ones(2))));
    }
    if start < further {
        found.extend([start, further - 1].iter().flat_map(|&address| [1, 2].map(|ones| at(15, address, Why::Ones(ones)))));
    }
    found
}

/// 17 and 18 where the bits can hold a number that is too large; 19 where the string or the numeric string begins.
fn of_fields(scheme: &Scheme, row: &Row) -> Vec<Place> {
    let mut found = Vec::new();
    for part in scheme.parts {
        let (number, bits, limit) = match *part {
            Part::Prefix => (17, row.prefix.bits, 10u64.pow(row.prefix.digits as u32)),
            Part::Reference(table) => (18, row.reference(table).bits, 10u64.pow(row.reference(table).digits as u32)),
            Part::RowInteger(table) => (18, row.integer(table).bits, row.integer(table).limit),
            _ => continue,
        };
        let first = if number == 17 { 0x2E } else { 0x2E + row.prefix.bits };
        found.extend((limit >> bits == 0).then_some(at(number, first, Why::Plain)));
    }
    found.extend(scheme.parts.last().map_or(Vec::new(), |part| of_string(scheme, part)));
    found
}

/// 19 with the first, the middle and the last group of a string wrong; with an integer of few, some and all digits.
fn of_string(scheme: &Scheme, part: &Part) -> Vec<Place> {
    let (bits, faults) = match *part {
        Part::String { bits } => {
            let count = bits / CHARACTER_BITS;
            (bits, [0, count / 2, count - 1].map(Why::Group))
        }
        Part::NumericString(NumericString { bits, most }) => {
            (bits, [1, most / 2 + 1, most + 1].map(|digits| Why::Digits(digits as u32)))
        }
        _ => return Vec::new(),
    };
    faults.map(|why| at(19, 0x20 + scheme.bits - bits, why)).to_vec()
}
