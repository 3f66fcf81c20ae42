//! Tags made from the tables at every partition value, with control fields and without, some in more words
//! than they need: their bank as a row of binary digits, and each from the other. Changed texts and banks:
//! what is taken comes back as it was.

mod common;

use common::{assert_pair, assert_pair_in, bytes, decode, encode_bytes, encode_in, raw};
use common::{word_count, Random};
use second::tables::*;

const CHARACTERS: &[u8] =
    b"!\"%&'()*+,-./0123456789:;<=>?ABCDEFGHIJKLMNOPQRSTUVWXYZ_abcdefghijklmnopqrstuvwxyz";

/// A tag as it grows: its text, the bits of its control fields, and its code as a row of binary digits.
struct Tag {
    text: String,
    control: u64,
    code: String,
    separator: char,
}

impl Tag {
    fn part(&mut self, text: &str, value: u64, bits: usize) {
        self.text += &format!("{}{text}", self.separator);
        self.code += &format!("{value:0bits$b}");
        self.separator = '.';
    }

    fn bank(&self, words: usize) -> Vec<u8> {
        let all = format!("{words:05b}{:011b}{}", self.control, self.code);
        let all = format!("{all:0<width$}", width = 16 + 16 * words);
        (0..all.len() / 8).map(|i| u8::from_str_radix(&all[8 * i..8 * i + 8], 2).unwrap()).collect()
    }
}

/// A tag of a scheme; `pick` gives a value below a limit for each part.
fn tag(scheme: &Scheme, partition: usize, pick: &mut impl FnMut(u64) -> u64) -> Tag {
    let row = &ROWS[partition];
    let (umi, att) = (pick(2), pick(2) * pick(256));
    let text = format!("urn:epc:tag:{}{}", fields(umi, att), scheme.name.escape_ascii());
    let (control, code) = (umi << 10 | att, format!("{:08b}", scheme.header));
    let mut tag = Tag { text, control, code, separator: ':' };
    for part in scheme.parts {
        match *part {
            Part::Filter => filter(&mut tag, pick),
            Part::Prefix => {
                tag.code += &format!("{partition:03b}");
                padded(&mut tag, row.prefix, pick);
            }
            Part::Reference(table) => padded(&mut tag, row.reference(table), pick),
            Part::RowInteger(table) => integer(&mut tag, row.integer(table), pick),
            Part::Integer(kind) => integer(&mut tag, kind, pick),
            Part::String { bits } => string(&mut tag, bits, pick),
            Part::NumericString(kind) => numeric_string(&mut tag, kind, pick),
        }
    }
    tag
}

/// The control fields of a text, each only if it is not zero.
fn fields(umi: u64, att: u64) -> String {
    match (umi, att) {
        (0, 0) => String::new(),
        (0, att) => format!("[att=x{att:02X}]:"),
        (_, 0) => "[umi=1]:".to_string(),
        (_, att) => format!("[umi=1][att=x{att:02X}]:"),
    }
}

fn filter(tag: &mut Tag, pick: &mut impl FnMut(u64) -> u64) {
    let value = pick(8);
    tag.part(&value.to_string(), value, 3);
}

fn integer(tag: &mut Tag, kind: Integer, pick: &mut impl FnMut(u64) -> u64) {
    let value = pick(kind.limit);
    tag.part(&value.to_string(), value, kind.bits);
}

fn padded(tag: &mut Tag, kind: Padded, pick: &mut impl FnMut(u64) -> u64) {
    let value = pick(10u64.pow(kind.digits as u32));
    let text =
        if kind.digits == 0 { String::new() } else { format!("{value:0w$}", w = kind.digits) };
    tag.part(&text, value, kind.bits);
}

fn string(tag: &mut Tag, bits: usize, pick: &mut impl FnMut(u64) -> u64) {
    let count = 1 + pick(bits as u64 / 7) as usize;
    let (mut text, mut groups) = (String::new(), String::new());
    for _ in 0..count {
        let character = CHARACTERS[pick(CHARACTERS.len() as u64) as usize];
        text += &match character {
            b'"' | b'%' | b'&' | b'/' | b'<' | b'>' | b'?' => format!("%{character:02X}"),
            _ => (character as char).to_string(),
        };
        groups += &format!("{character:07b}");
    }
    tag.text += &format!(".{text}");
    tag.code += &format!("{groups:0<bits$}");
}

fn numeric_string(tag: &mut Tag, kind: NumericString, pick: &mut impl FnMut(u64) -> u64) {
    let count = 1 + pick(kind.most as u64) as usize;
    let digits: String = (0..count).map(|_| pick(10).to_string()).collect();
    tag.part(&digits, format!("1{digits}").parse().unwrap(), kind.bits);
}

fn assert_tag(scheme: &Scheme, tag: &Tag) {
    assert_pair(&tag.text, &tag.bank(scheme.words));
}

/// A word count that a bank of the scheme can have; one in two, and some more, is the scheme's own.
fn words(scheme: &Scheme, random: &mut Random) -> usize {
    let more = random.below(2) * random.below(32 - scheme.words as u64);
    scheme.words + more as usize
}

#[test]
fn the_character_list_is_whole() {
    assert_eq!(CHARACTERS.len(), 82);
    assert!(CHARACTERS.windows(2).all(|pair| pair[0] < pair[1]));
}

#[test]
fn smallest_largest_and_middle_parts_at_every_partition() {
    for scheme in &SCHEMES {
        for partition in 0..ROWS.len() {
            assert_tag(scheme, &tag(scheme, partition, &mut |_| 0));
            assert_tag(scheme, &tag(scheme, partition, &mut |limit| limit - 1));
            assert_tag(scheme, &tag(scheme, partition, &mut |limit| limit / 2));
        }
    }
}

#[test]
fn random_tags() {
    let mut random = Random(1);
    for round in 0..20_000 {
        let scheme = &SCHEMES[round % SCHEMES.len()];
        let partition = random.below(7) as usize;
        let tag = tag(scheme, partition, &mut |limit| random.below(limit));
        assert_tag(scheme, &tag);
        let words = words(scheme, &mut random);
        assert_pair_in(words, &tag.text, &tag.bank(words));
    }
}

#[test]
fn changed_texts() {
    let mut random = Random(2);
    let (mut taken, mut refused) = (0, [0; 21]);
    for round in 0..60_000 {
        let scheme = &SCHEMES[round % SCHEMES.len()];
        let partition = random.below(7) as usize;
        let tag = tag(scheme, partition, &mut |limit| random.below(limit));
        let mut text = tag.text.into_bytes();
        let place = random.below(text.len() as u64) as usize;
        match random.below(4) {
            0 => text[place] = random.below(256) as u8,
            1 => text[place] = b"0123456789.:%ABCF []="[random.below(21) as usize],
            2 => text.insert(place, b"0123456789.:%ABCF []="[random.below(21) as usize]),
            _ => drop(text.remove(place)),
        }
        match encode_bytes(&text) {
            Ok(bank) => {
                assert_eq!(decode(&bank).unwrap().as_bytes(), text);
                taken += 1;
            }
            Err(number) => refused[number as usize] += 1,
        }
    }
    let seen = [&refused[2..=8], &refused[20..]].concat();
    assert!(taken > 1000 && seen.iter().all(|&count| count > 50), "{taken} {refused:?}");
}

#[test]
fn changed_banks() {
    let mut random = Random(3);
    let (mut taken, mut refused) = (0, [0; 20]);
    for round in 0..60_000 {
        let scheme = &SCHEMES[round % SCHEMES.len()];
        let partition = random.below(7) as usize;
        let tag = tag(scheme, partition, &mut |limit| random.below(limit));
        let mut bank = tag.bank(words(scheme, &mut random));
        for _ in 0..=random.below(2) {
            let bit = random.below(8 * bank.len() as u64) as usize;
            bank[bit / 8] ^= 0x80 >> (bit % 8);
        }
        bank.truncate(bank.len() - (random.below(50) == 0) as usize);
        taken += usize::from(bank_comes_back(&bank, &mut refused));
    }
    assert!(taken > 1000 && refused[11..].iter().all(|&count| count > 50), "{taken} {refused:?}");
}

#[test]
fn random_codes_under_a_good_header() {
    let mut random = Random(4);
    let (mut taken, mut refused) = (0, [0; 20]);
    for round in 0..60_000 {
        let scheme = &SCHEMES[round % SCHEMES.len()];
        let words = words(scheme, &mut random);
        let control = words << 11 | (random.any() & 0x04FF) as usize;
        let mut bank = bytes(&format!("{control:04X}{:02X}", scheme.header));
        bank.resize_with(2 + 2 * words, || random.any() as u8);
        if random.below(8) > 0 {
            clear_from(&mut bank, 16 + scheme.zero_from());
        }
        taken += usize::from(bank_comes_back(&bank, &mut refused));
    }
    assert!(taken > 1000 && refused[15..].iter().all(|&count| count > 50), "{taken} {refused:?}");
}

fn clear_from(bank: &mut [u8], first: usize) {
    for bit in first..8 * bank.len() {
        bank[bit / 8] &= !(0x80 >> (bit % 8));
    }
}

/// Whether a bank is taken: then its text gives it back in as many words; if not, the refusal is counted,
/// and from 11 on there is a raw line.
fn bank_comes_back(bank: &[u8], refused: &mut [usize; 20]) -> bool {
    match decode(bank) {
        Ok(text) => {
            let words = word_count(bank);
            let again = encode_in(words, text.as_bytes());
            assert_eq!(again.as_deref(), Ok(&bank[..2 + 2 * words]), "{text}");
            true
        }
        Err(number) => {
            assert_eq!(raw(bank).err(), (number < 11).then_some(number));
            refused[number as usize] += 1;
            false
        }
    }
}
