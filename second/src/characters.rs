//! Table A-1 of the standard: the characters of a string, as 7 bits and in a text.

use crate::numerals::hex_value;
use crate::tables::CHARACTER_BITS;

/// Hex value and URI form, in the standard's order.
#[rustfmt::skip]
pub const TABLE_A_1: [(u8, &str); 82] = [
    (0x21, "!"), (0x22, "%22"), (0x25, "%25"), (0x26, "%26"), (0x27, "'"), (0x28, "("),
    (0x29, ")"), (0x2A, "*"), (0x2B, "+"), (0x2C, ","), (0x2D, "-"), (0x2E, "."),
    (0x2F, "%2F"), (0x30, "0"), (0x31, "1"), (0x32, "2"), (0x33, "3"), (0x34, "4"),
    (0x35, "5"), (0x36, "6"), (0x37, "7"), (0x38, "8"), (0x39, "9"), (0x3A, ":"),
    (0x3B, ";"), (0x3C, "%3C"), (0x3D, "="), (0x3E, "%3E"), (0x3F, "%3F"), (0x41, "A"),
    (0x42, "B"), (0x43, "C"), (0x44, "D"), (0x45, "E"), (0x46, "F"), (0x47, "G"),
    (0x48, "H"), (0x49, "I"), (0x4A, "J"), (0x4B, "K"), (0x4C, "L"), (0x4D, "M"),
    (0x4E, "N"), (0x4F, "O"), (0x50, "P"), (0x51, "Q"), (0x52, "R"), (0x53, "S"),
    (0x54, "T"), (0x55, "U"), (0x56, "V"), (0x57, "W"), (0x58, "X"), (0x59, "Y"),
    (0x5A, "Z"), (0x5F, "_"), (0x61, "a"), (0x62, "b"), (0x63, "c"), (0x64, "d"),
    (0x65, "e"), (0x66, "f"), (0x67, "g"), (0x68, "h"), (0x69, "i"), (0x6A, "j"),
    (0x6B, "k"), (0x6C, "l"), (0x6D, "m"), (0x6E, "n"), (0x6F, "o"), (0x70, "p"),
    (0x71, "q"), (0x72, "r"), (0x73, "s"), (0x74, "t"), (0x75, "u"), (0x76, "v"),
    (0x77, "w"), (0x78, "x"), (0x79, "y"), (0x7A, "z"),
];

const GROUPS: usize = 1 << CHARACTER_BITS;

/// The URI form of each 7-bit group; empty outside table A-1.
static FORMS: [&[u8]; GROUPS] = forms();

/// For each byte of a text, the character that it is when it stands for itself; 0 if it never does.
static PLAIN: [u8; 256] = plain();

const fn forms() -> [&'static [u8]; GROUPS] {
    let mut forms: [&[u8]; GROUPS] = [b""; GROUPS];
    let mut i = 0;
    while i < TABLE_A_1.len() {
        forms[TABLE_A_1[i].0 as usize] = TABLE_A_1[i].1.as_bytes();
        i += 1;
    }
    forms
}

const fn plain() -> [u8; 256] {
    let mut plain = [0; 256];
    let mut i = 0;
    while i < TABLE_A_1.len() {
        let (value, form) = TABLE_A_1[i];
        if form.len() == 1 {
            plain[form.as_bytes()[0] as usize] = value;
        }
        i += 1;
    }
    plain
}

/// The URI form of a 7-bit group, if table A-1 has it.
pub fn form(group: u8) -> Option<&'static [u8]> {
    let form = FORMS[group as usize];
    (!form.is_empty()).then_some(form)
}

/// The first character of a text that isn't empty, and how many bytes it takes there.
pub fn first(text: &[u8]) -> Option<(u8, usize)> {
    match PLAIN[text[0] as usize] {
        0 => Some((escaped(text)?, 3)),
        value => Some((value, 1)),
    }
}

/// Whether a text is one character or more, and nothing else.
pub fn is_string(text: &[u8]) -> bool {
    let mut rest = text;
    while !rest.is_empty() {
        let Some((_, taken)) = first(rest) else { return false };
        rest = &rest[taken..];
    }
    !text.is_empty()
}

/// How many characters a string has: an escape takes three bytes.
pub fn count(string: &[u8]) -> usize {
    string.len() - 2 * string.iter().filter(|&&byte| byte == b'%').count()
}

/// Whether a text is a component / part reference, which has characters and escapes of its own.
pub fn is_cp_ref(text: &[u8]) -> bool {
    let mut rest = text;
    while !rest.is_empty() {
        rest = match rest {
            [b'0'..=b'9' | b'A'..=b'Z' | b'-', behind @ ..] => behind,
            [b'%', b'2', b'3' | b'F', behind @ ..] => behind,
            _ => return false,
        };
    }
    !text.is_empty()
}

/// The character of the escape that a text begins with.
fn escaped(text: &[u8]) -> Option<u8> {
    let &[b'%', high, low, ..] = text else { return None };
    let value = hex_value(high)? << 4 | hex_value(low)?;
    let form = FORMS.get(value as usize)?;
    (form.len() == 3).then_some(value)
}

#[cfg(test)]
mod tests {
    use super::*;

    #[test]
    fn the_seven_are_escaped_and_the_rest_stand_for_themselves() {
        for (value, form) in TABLE_A_1 {
            if b"\"%&/<>?".contains(&value) {
                assert_eq!(form, format!("%{value:02X}"));
            } else {
                assert_eq!(form.as_bytes(), [value]);
            }
        }
    }

    #[test]
    fn every_character_is_read_back_from_its_form() {
        for (value, form) in TABLE_A_1 {
            assert_eq!(super::form(value), Some(form.as_bytes()));
            assert_eq!(first(form.as_bytes()), Some((value, form.len())));
        }
    }

    #[test]
    fn no_other_byte_and_no_other_escape_is_read() {
        let plain: Vec<u8> = (0..=255).filter(|&byte| first(&[byte]).is_some()).collect();
        assert_eq!(plain.len(), 75);
        let escapes = (0..=255u8).filter(|byte| first(format!("%{byte:02X}").as_bytes()).is_some());
        assert_eq!(escapes.collect::<Vec<u8>>(), b"\"%&/<>?");
        let lower = (0..=255u8).filter(|byte| first(format!("%{byte:02x}").as_bytes()).is_some());
        assert_eq!(lower.collect::<Vec<u8>>(), b"\"%&");
        assert_eq!((first(b"%"), first(b"%2"), first(b"%G2")), (None, None, None));
    }

    #[test]
    fn strings_are_counted_by_characters() {
        for (text, count) in [("a", 1), ("%2F", 1), ("%25%25", 2), ("a%3Cb.:", 5)] {
            assert!(is_string(text.as_bytes()), "{text}");
            assert_eq!(super::count(text.as_bytes()), count, "{text}");
        }
        for text in ["", " ", "a b", "%", "%2", "%2f", "a%41", "aaaa#"] {
            assert!(!is_string(text.as_bytes()), "{text}");
        }
    }

    #[test]
    fn part_references_have_characters_and_escapes_of_their_own() {
        let plain: Vec<u8> = (0..=255).filter(|&byte| is_cp_ref(&[b'A', byte, b'0'])).collect();
        assert_eq!(plain, b"-0123456789ABCDEFGHIJKLMNOPQRSTUVWXYZ");
        let escapes = (0..=255u8).filter(|byte| is_cp_ref(format!("A%{byte:02X}").as_bytes()));
        assert_eq!(escapes.collect::<Vec<u8>>(), b"#/");
        for text in ["", "%", "%2", "%2f", "A%", "%2F%", "%%2F"] {
            assert!(!is_cp_ref(text.as_bytes()), "{text}");
        }
    }

    #[test]
    fn a_group_is_shown_exactly_if_the_table_has_it() {
        let shown = (0..128).filter(|&group| form(group).is_some()).count();
        assert_eq!(shown, TABLE_A_1.len());
    }
}
