//! Control fields before a scheme's name: what is taken, both ways; what is refused with 20, and where;
//! what stands there and is no field.

mod common;

use common::{assert_pair, bytes, decode, encode, refused_bank, refused_text, reply, TAGS};

/// Good fields that may come before a wrong one, and the offset behind them.
const BEFORE: [(&str, usize); 4] =
    [("", 12), ("[umi=1]", 19), ("[att=x01]", 21), ("[umi=1][att=xFF]", 28)];

/// Fields that are never taken: empty, cut, zero, of other values, names, digits and brackets.
#[rustfmt::skip]
const WRONG: [&str; 53] = [
    "[", "[]", "[:", "[[", "[umi", "[umi]", "[umi=", "[umi=]", "[umi=1", "[umi=1:", "[umi=1[",
    "[umi=0]", "[umi=2]", "[umi=9]", "[umi=x1]", "[umi=x01]", "[umi=01]", "[umi=10]", "[umi=11]",
    "[umi=+1]", "[umi= 1]", "[umi=1 ]", "[ umi=1]", "[umi =1]", "[UMI=1]", "[Umi=1]", "[umi:1]",
    "[umi1]", "[umi==1]", "[umi=1}", "[umi=1)", "[att", "[att=x0", "[att=x01", "[att=x01:",
    "[att=x00]", "[att=x1]", "[att=x001]", "[att=x0001]", "[att=01]", "[att=1]", "[att=X01]",
    "[att=xab]", "[att=xaB]", "[att=xAb]", "[att=xG0]", "[att=x0G]", "[att=x 1]", "[ATT=x01]",
    "[att=0x01]", "[xpc=x0004]", "[toggle=1]", "[umi=1,att=x01]",
];

/// The fields of a text.
fn fields(umi: u16, att: u16) -> String {
    let umi = ["", "[umi=1]"][umi as usize].to_string();
    let att = if att > 0 { format!("[att=x{att:02X}]") } else { String::new() };
    let colon = if umi.len() + att.len() > 0 { ":" } else { "" };
    umi + &att + colon
}

fn assert_tag((words, rest, code): (u16, &str, &str), umi: u16, att: u16) {
    let control = words << 11 | umi << 10 | att;
    let text = format!("urn:epc:tag:{}{rest}", fields(umi, att));
    assert_pair(&text, &bytes(&format!("{control:04X}{code}")));
}

fn place(rest: &str) -> (u8, usize) {
    refused_text(format!("urn:epc:tag:{rest}").as_bytes())
}

#[test]
fn every_combination_on_every_scheme() {
    for tag in TAGS {
        for umi in [0, 1] {
            for att in [0x00, 0x01, 0x0A, 0x10, 0x80, 0xA0, 0xC5, 0xFF] {
                assert_tag(tag, umi, att);
            }
        }
    }
}

#[test]
fn every_value_of_both_fields() {
    for umi in [0, 1] {
        for att in 0..=0xFF {
            assert_tag(TAGS[0], umi, att);
        }
    }
}

/// Text to bank to text, and bank to text to bank, over all that the two fields can be: no two of 512 texts
/// share a bank.
#[test]
fn five_hundred_and_twelve_banks() {
    let (_, rest, code) = TAGS[0];
    let mut banks = Vec::new();
    for control in (0..0x0500u16).filter(|control| control & !0x04FF == 0) {
        let bank = bytes(&format!("{:04X}{code}", 0x3000 | control));
        let text = decode(&bank).unwrap();
        assert!(text.starts_with("urn:epc:tag:") && text.ends_with(rest));
        assert_eq!(encode(&text).as_ref(), Ok(&bank));
        assert_eq!(decode(&encode(&text).unwrap()), Ok(text));
        assert!(!banks.contains(&bank));
        banks.push(bank);
    }
    assert_eq!(banks.len(), 512);
}

#[test]
fn both_hex_digits_are_upper_case_hex() {
    let mut taken = 0;
    for high in 0..=255u8 {
        for low in 0..=255u8 {
            let mut text = b"urn:epc:tag:[att=x..]:gid-96:1.2.3".to_vec();
            text[18..20].copy_from_slice(&[high, low]);
            let digits = [high, low].map(|c| c.is_ascii_digit() || (b'A'..=b'F').contains(&c));
            if digits == [true, true] && [high, low] != *b"00" {
                assert!(encode(&String::from_utf8(text).unwrap()).is_ok());
                taken += 1;
            } else {
                assert_eq!(refused_text(&text), (20, 12), "{high:02X} {low:02X}");
            }
        }
    }
    assert_eq!(taken, 255);
}

/// The first wrong field has the place, whatever stands before it, and whatever follows.
#[test]
fn wrong_fields_at_every_place() {
    for (before, offset) in BEFORE {
        for wrong in WRONG {
            for behind in ["", ":", ":gid-96:1.2.3", "gid-96:1.2.3", "[att=x01]:gid-96:1.2.3"] {
                let text = format!("{before}{wrong}{behind}");
                assert_eq!(place(&text), (20, offset), "{text}");
            }
        }
    }
}

#[test]
fn repeated_and_out_of_order() {
    for behind in ["", ":gid-96:1.2.3"] {
        let place = |fields: &str| place(&format!("{fields}{behind}"));
        assert_eq!(place("[umi=1][umi=1]"), (20, 19));
        assert_eq!(place("[att=x01][umi=1]"), (20, 21));
        assert_eq!(place("[att=x01][att=x01]"), (20, 21));
        assert_eq!(place("[att=x01][att=x02]"), (20, 21));
        assert_eq!(place("[umi=1][att=x01][att=x02]"), (20, 28));
        assert_eq!(place("[umi=1][att=x01][umi=1]"), (20, 28));
        assert_eq!(place("[umi=0][att=x00]"), (20, 12), "the first of two");
        assert_eq!(place("[umi=1][att=x00][umi=1]"), (20, 19));
    }
    assert_eq!(place(&"[umi=1]".repeat(100_000)), (20, 19));
    assert_eq!(place(&"[".repeat(100_000)), (20, 12));
}

#[test]
fn the_colon_is_missing() {
    for (before, offset) in &BEFORE[1..] {
        for behind in ["", "gid-96:1.2.3", "]:gid-96:1.2.3", " :gid-96:1.2.3", ".", ";", "\0", "1"]
        {
            assert_eq!(place(&format!("{before}{behind}")), (20, *offset), "{before}{behind}");
        }
    }
}

/// Good fields cut at each character, at the text's end and with the name behind the cut.
#[test]
fn cut_at_each_character() {
    for (fields, starts) in [
        ("[umi=1]:", &[(0, 7), (7, 8)][..]),
        ("[att=xA5]:", &[(0, 9), (9, 10)]),
        ("[umi=1][att=xA5]:", &[(0, 7), (7, 16), (16, 17)]),
    ] {
        for end in 1..fields.len() {
            let (start, _) = starts.iter().find(|(_, next)| end < *next).unwrap();
            assert_eq!(place(&fields[..end]), (20, 12 + start), "{fields}, {end}");
            let named = format!("{}gid-96:1.2.3", &fields[..end]);
            assert_eq!(place(&named), (20, 12 + start), "{named}");
        }
        assert_eq!(place(&fields[..0]), (3, 12));
        assert_eq!(place(fields), (3, 12 + fields.len()));
    }
}

#[test]
fn what_is_no_control_field() {
    for rest in ["]", ":", "umi=1:", "umi=1]:gid-96:1.2.3", "(umi=1):", "{umi=1}:", " [umi=1]:"] {
        assert_eq!(place(rest), (3, 12), "{rest}");
    }
    for rest in [":[umi=1]:gid-96:1.2.3", "gid-96[umi=1]:1.2.3", "\0[umi=1]:gid-96:1.2.3"] {
        assert_eq!(place(rest), (3, 12), "{rest}");
    }
    assert_eq!(place("gid-96:[umi=1]:1.2.3"), (5, 19));
    assert_eq!(place("sgtin-198:0.0614141.812345.[umi=1]"), (7, 39));
    for behind in ["", ":", "[", "[att=x01]:gid-96:1.2.3", ":gid-96:1.2.3", "gid-95:1.2.3"] {
        assert_eq!(place(&format!("[umi=1]:{behind}")), (3, 20), "{behind}");
    }
    assert_eq!(place("[umi=1][att=xFF]:[umi=1]:gid-96:1.2.3"), (3, 29));
}

#[test]
fn every_other_byte_behind_the_start_is_no_bracket() {
    for byte in (0..=255u8).filter(|&byte| byte != b'[') {
        let text = [b"urn:epc:tag:", &[byte][..], b"umi=1]:gid-96:1.2.3"].concat();
        assert_eq!(refused_text(&text), (3, 12), "{byte:02X}");
    }
}

#[test]
fn between_2_and_3() {
    assert_eq!(refused_text(b"urn:epc:tab:[umi=0]:gid-95:x"), (2, 0));
    assert_eq!(refused_text(b"urn:epc:tag[umi=1]:gid-96:1.2.3"), (2, 0));
    assert_eq!(refused_text(b"[umi=1]:urn:epc:tag:gid-96:1.2.3"), (2, 0));
    assert_eq!(place("[umi=0]:gid-95:x"), (20, 12));
    assert_eq!(place("[umi=1]:gid-95:x"), (3, 20));
    assert_eq!(place("[umi=0]:sgtin-96:8.1.1.1"), (20, 12));
    assert_eq!(place("[umi=1]:sgtin-96:8.1.1.1"), (4, 29));
}

/// Bit 16h alone is refused with 12, whatever the two fields are, behind 11 and before 13.
#[test]
fn bit_16_of_banks() {
    for (words, _, code) in TAGS {
        for bits in (0..0x0800u16).filter(|bits| bits & 0x0300 != 0) {
            let hex = format!("{:04X}{code}", words << 11 | bits);
            let expected = if bits & 0x0100 != 0 { (11, 0x17) } else { (12, 0x16) };
            assert_eq!(refused_bank(&bytes(&hex)), expected, "{hex}");
            let other = format!("{:04X}FF{}", words << 11 | bits, &code[2..]);
            assert_eq!(refused_bank(&bytes(&other)), expected, "{other}");
        }
        let other = format!("{:04X}FF{}", words << 11 | 0x04FF, &code[2..]);
        assert_eq!(refused_bank(&bytes(&other)), (13, 0x20));
    }
}

#[test]
fn the_program_gives_20_for_a_text_and_shows_nothing() {
    assert_eq!(reply(b"urn:epc:tag:[att=x01][umi=1]:gid-96:1.2.3"), "N 20");
    assert_eq!(reply(b"urn:epc:tag:[umi=1]"), "N 20");
    assert_eq!(
        reply(b"34A5350000001000002000000003"),
        "T urn:epc:tag:[umi=1][att=xA5]:gid-96:1.2.3"
    );
    assert_eq!(
        reply(b"3600350000001000002000000003"),
        "R 12 urn:epc:raw:96.x350000001000002000000003"
    );
}
