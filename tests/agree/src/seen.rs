//! The place of a reply, and what of the input led to it. The input is looked at only as far as the number says that it can be.
use crate::codecs::Reply;
use crate::place::{Place, Why};
use second::tables::{Part, Scheme, CHARACTER_BITS, ROWS, TAG_START};

/// The place of the refusal of a text that is asked for in so many words.
pub fn in_text(text: &[u8], words: u32, Reply { number, place, .. }: Reply) -> Option<Place> {
    let why = match text.get(usize::from(place)) {
        _ if number == 21 || number == 22 => Why::Asked(words),
        None => Why::AtEnd,
        Some(b'[') if number == 20 => Why::Field,
        Some(_) => Why::Plain,
    };
    let of =
        |scheme: Option<&Scheme>, row, fields| Some(Place { scheme: scheme.map(|s| s.name), row, fields, number, place, why });
    if number == 0 {
        return None;
    }
    if !matches!(number, 3..=8 | 22) {
        return of(None, None, 0);
    }
    let (fields, named) = behind_fields(&text[TAG_START.len()..]);
    if number == 3 {
        return of(None, None, fields);
    }
    let (name, parts) = split(named, b':');
    let row = if (6..=8).contains(&number) { row_of(name, parts) } else { None };
    of(Scheme::by_name(name), row, fields)
}

/// How many characters of good control fields, and of the colon behind them, stand before the name; and the text from the name on.
fn behind_fields(text: &[u8]) -> (usize, &[u8]) {
    let named = if text.starts_with(b"[") { split(text, b':').1 } else { text };
    (text.len() - named.len(), named)
}

/// The row of a text's company prefix, where the scheme has one.
fn row_of(name: &[u8], parts: &[u8]) -> Option<usize> {
    Scheme::by_name(name).filter(|scheme| has_rows(scheme))?;
    let (_, after_filter) = split(parts, b'.');
    let (prefix, _) = split(after_filter, b'.');
    ROWS.iter().position(|row| row.prefix.digits == prefix.len())
}

pub fn has_rows(scheme: &Scheme) -> bool {
    scheme.parts.iter().any(|part| matches!(part, Part::Prefix))
}

/// What stands before the first such byte, and after it.
fn split(text: &[u8], byte: u8) -> (&[u8], &[u8]) {
    let end = text.iter().position(|&other| other == byte).unwrap_or(text.len());
    (&text[..end], text.get(end + 1..).unwrap_or_default())
}

/// The place of a bank's refusal.
pub fn in_bank(bank: &[u8], Reply { number, place, .. }: Reply) -> Option<Place> {
    let of =
        |scheme: Option<&Scheme>, row, why| Some(Place { scheme: scheme.map(|s| s.name), row, fields: 0, number, place, why });
    if number == 0 {
        return None;
    }
    if number < 14 {
        let why = match number {
            9 if bank.len() > 1 => Why::Words(bits(bank, 0x10, 5) as usize),
            12 => Why::Bits(bits(bank, 0x15, 11) as u32),
            _ => Why::Plain,
        };
        return of(None, None, why);
    }
    let scheme = Scheme::by_header(bank[2])?;
    let row = if number > 16 { Some(bits(bank, 0x2B, 3) as usize) } else { None };
    let why = match number {
        14 => Why::Words(bits(bank, 0x10, 5) as usize),
        15 => ones(bank, scheme),
        19 => wrong_string(bank, scheme),
        _ => Why::Plain,
    };
    of(Some(scheme), row, why)
}

/// The bits that must be zero; in a bank with further words how many of them are one.
fn ones(bank: &[u8], scheme: &Scheme) -> Why {
    let (start, words) = (0x20 + scheme.zero_from(), bits(bank, 0x10, 5) as usize);
    let end = 0x20 + 16 * words;
    if words == scheme.words {
        return Why::Bits(bits(bank, start, end - start) as u32);
    }
    Why::Ones((start..end).filter(|&address| bits(bank, address, 1) == 1).count())
}

/// What is wrong with the string that a scheme ends with.
fn wrong_string(bank: &[u8], scheme: &Scheme) -> Why {
    match scheme.parts.last() {
        Some(&Part::String { bits: width }) => {
            let first = 0x20 + scheme.bits - width;
            let groups = (0..width / CHARACTER_BITS).map(|i| bits(bank, first + CHARACTER_BITS * i, CHARACTER_BITS) as u8);
            wrong_group(&groups.collect::<Vec<_>>()).map_or(Why::Plain, Why::Group)
        }
        Some(Part::NumericString(kind)) => {
            let integer = bits(bank, 0x20 + scheme.bits - kind.bits, kind.bits);
            Why::Digits(integer.checked_ilog10().unwrap_or(0) + 1)
        }
        _ => Why::Plain,
    }
}

/// The first group that is no character, but for zeros behind the first; or that comes after a zero and is none.
fn wrong_group(groups: &[u8]) -> Option<usize> {
    let character = |group: u8| group.is_ascii_graphic() && !b"#$@[\\]^`{|}~".contains(&group);
    let end = groups.iter().position(|&group| group == 0).unwrap_or(groups.len()).max(1);
    (0..groups.len()).find(|&i| if i < end { !character(groups[i]) } else { groups[i] != 0 })
}

/// So many bits of a bank, from an address on.
fn bits(bank: &[u8], address: usize, width: usize) -> u64 {
    (address - 0x10..address - 0x10 + width).fold(0, |value, bit| value << 1 | u64::from(bank[bit / 8] >> (7 - bit % 8) & 1))
}
