//! Every refusal, where it begins and where it ends, and which comes first.

mod common;

use common::{bytes, decode, encode, encode_bytes, raw};
use second::{Answer, Refusal};

fn tag(rest: &str) -> Result<Vec<u8>, u8> {
    encode(&format!("urn:epc:tag:{rest}"))
}

fn assert_refused(number: u8, rests: &[&str]) {
    for rest in rests {
        assert_eq!(tag(rest), Err(number), "{rest}");
    }
}

fn assert_taken(rests: &[&str]) {
    for rest in rests {
        let bank = tag(rest).unwrap_or_else(|number| panic!("{rest}: {number}"));
        assert_eq!(decode(&bank), Ok(format!("urn:epc:tag:{rest}")));
    }
}

#[test]
fn refusal_1_short_outputs() {
    let text = b"urn:epc:tag:gid-96:1.2.3";
    let bank = bytes("3000 350000001000002000000003");
    type Call = fn(&[u8], &mut [u8]) -> Answer;
    for (call, input, room) in [
        ((|text, out| second::text_to_bank(text, 0, out)) as Call, &text[..], 64),
        (second::bank_to_text, &bank[..], 160),
        (second::raw_line, &bank[..], 160),
        (second::tag_to_identity, &text[..], 160),
        (|identity, out| second::identity_to_tag(identity, 0, out), b"urn:epc:id:gid:1.2.3", 160),
    ] {
        for length in [0, 1, room - 1] {
            for input in [input, b"", b"?"] {
                let mut out = vec![0x5A; length];
                let refusal = Refusal { number: 1, place: 0 };
                assert_eq!(call(input, &mut out), Err(refusal), "1 comes before all others");
                assert!(out.iter().all(|&byte| byte == 0x5A));
            }
        }
        let mut out = vec![0x5A; room];
        assert!(call(input, &mut out).is_ok());
    }
}

#[test]
fn refusal_2_another_start() {
    for text in ["", "urn", "urn:epc:tag", "urn:epc:id:sgtin:0614141.112345.400", "URN:EPC:TAG:"] {
        assert_eq!(encode(text), Err(2), "{text}");
    }
    assert_eq!(encode(" urn:epc:tag:gid-96:1.2.3"), Err(2));
}

#[test]
fn refusal_3_another_name() {
    assert_refused(3, &["", ":", "gid-96", "gid-96.", "gid-96 :1.2.3", "Gid-96:1.2.3"]);
    assert_refused(3, &["gid-9:1.2.3", "gid-966:1.2.3", "gsrn-96p:3.0614141.1234567890"]);
    assert_refused(3, &["gdti-11:3.9521141.12345.1", "gdti-113+:3.9521141.12345.1"]);
    assert_refused(3, &["sgcn+:3.9521141.67890.04711", "sgcn:3.9521141.67890.04711"]);
    assert_refused(3, &["cpi-var:3.9521141.98765.12345", "cpi-97:3.9521141.98765.12345"]);
    assert_refused(3, &["giai-202:3.9521141.5678", "itip-110:3.9521141.012345.01.02.981"]);
    assert_refused(3, &["usdod-96:3.CAGEY.5678", "adi-var:3.35962.PQ7VZ4.M37GXB92"]);
}

#[test]
fn refusal_4_filter() {
    assert_refused(4, &["sgtin-96:", "sgtin-96:3", "sgtin-96:.", "sgtin-96:8.", "sgtin-96:03."]);
    assert_refused(4, &["giai-96:3:9521141.5", "sscc-96:a.", "sgln-195: 3.", "grai-170:/."]);
    assert_eq!(encode_bytes(b"urn:epc:tag:gdti-174:\xB3.0614141.12345.1"), Err(4));
}

#[test]
fn refusal_5_prefix() {
    assert_refused(5, &["sgtin-96:3.", "sgtin-96:3..", "sgtin-96:3.0614141", "giai-96:3.95211.1"]);
    assert_refused(
        5,
        &["sscc-96:3.0614141234567.1", "grai-96:3.06141a1.1.1", "sgln-96:3.a0614141."],
    );
    assert_refused(
        5,
        &["gid-96:", "gid-96:5", "gid-96:.", "gid-96:05.6.7", "gid-96:268435456.1.1"],
    );
    assert_refused(5, &["gid-96:99999999999999999999999999999999999999999.1.1", "gid-96:1x.1.1"]);
}

#[test]
fn refusal_6_reference() {
    assert_refused(
        6,
        &["sgtin-96:3.0614141.", "sgtin-96:3.0614141.812345", "sgtin-96:3.0614141..7"],
    );
    assert_refused(6, &["sgtin-96:3.0614141.81234.7", "sgtin-96:3.0614141.8123456.7"]);
    assert_refused(6, &["sgtin-96:3.0614141.81234x.7", "grai-96:0.000000000001.5"]);
    assert_refused(6, &["grai-96:0.000000000001.0.5", "grai-96:0.000000000001."]);
    assert_refused(6, &["sscc-96:3.0614141.", "sscc-96:3.0614141.123456789", "sscc-96:3.061414.1"]);
    assert_refused(6, &["sscc-96:3.0614141.1234567890.", "gsrn-96:3.0614141.12345678901"]);
    assert_refused(6, &["gsrnp-96:3.0614141.1234567890 ", "gsrnp-96:3.0614141.123456789-"]);
    assert_refused(6, &["gid-96:5.6", "gid-96:5..", "gid-96:5.06.7", "gid-96:5.16777216.1"]);
}

#[test]
fn refusal_7_form_of_the_last_part() {
    assert_refused(7, &["sgtin-96:3.0614141.812345.", "sgtin-96:3.0614141.812345.00"]);
    assert_refused(7, &["sgtin-96:3.0614141.812345.1.", "sgtin-96:3.0614141.812345.12a"]);
    assert_refused(
        7,
        &["giai-96:3.9521141.", "giai-96:3.9521141.007", "gid-96:5.6.", "gid-96:5.6.7."],
    );
    assert_refused(7, &["sgtin-198:3.0614141.812345.", "sgtin-198:3.0614141.812345.a b"]);
    assert_refused(7, &["sgtin-198:3.0614141.812345.%", "sgtin-198:3.0614141.812345.%2"]);
    assert_refused(7, &["sgtin-198:3.0614141.812345.%2f", "sgtin-198:3.0614141.812345.%2E"]);
    assert_refused(7, &["sgtin-198:3.0614141.812345./", "sgtin-198:3.0614141.812345.#"]);
}

#[test]
fn refusal_7_comes_before_8() {
    let nines = "9".repeat(40);
    assert_refused(7, &[&format!("sgtin-96:3.0614141.812345.{nines}x")]);
    assert_refused(7, &[&format!("giai-96:3.9521141.0{nines}")]);
    assert_refused(7, &[&format!("sgtin-198:3.0614141.812345.{}#", "a".repeat(40))]);
    assert_refused(8, &[&format!("sgtin-96:3.0614141.812345.{nines}")]);
}

#[test]
fn refusal_8_size_of_integers() {
    for (start, bits) in [
        ("sgtin-96:3.0614141.812345.", 38),
        ("sgln-96:3.9521141.12345.", 41),
        ("grai-96:0.000000000001..", 38),
        ("gdti-96:3.9521141.12345.", 41),
        ("cpi-96:3.9521141.98765.", 31),
        ("gid-96:268435455.16777215.", 36),
        ("giai-96:3.952656789012.", 42),
        ("giai-96:3.95265678901.", 45),
        ("giai-96:3.9526567890.", 48),
        ("giai-96:3.952656789.", 52),
        ("giai-96:3.95265678.", 55),
        ("giai-96:3.9526567.", 58),
        ("giai-96:3.952656.", 62),
    ] {
        assert_taken(&[&format!("{start}{}", (1u64 << bits) - 1), &format!("{start}0")]);
        assert_refused(8, &[&format!("{start}{}", 1u64 << bits)]);
        assert_refused(8, &[&format!("{start}{}", u64::MAX)]);
        assert_refused(8, &[&format!("{start}{}", u128::from(u64::MAX) + 1)]);
    }
}

#[test]
fn refusal_8_size_of_strings() {
    for (start, most) in [
        ("sgtin-198:3.0614141.812345.", 20),
        ("sgln-195:3.952656789012..", 20),
        ("grai-170:3.952656789012..", 16),
        ("gdti-174:3.9521141.12345.", 17),
    ] {
        for character in ["a", ".", "%25", "0"] {
            let string = |count| format!("{start}{}", character.repeat(count));
            assert_taken(&[&string(1), &string(most - 1), &string(most)]);
            assert_refused(8, &[&string(most + 1), &string(most + 30)]);
        }
    }
}

#[test]
fn refusals_9_and_10_of_banks_and_raw_lines() {
    for (number, bank) in [
        (9, ""),
        (9, "30"),
        (9, "3000"),
        (9, "3000 3074257BF7194E4000001A"),
        (9, "0800 30"),
        (9, "FF"),
        (10, "0000"),
        (10, "07FF 30"),
        (10, "0000 3074257BF7194E4000001A85"),
    ] {
        assert_eq!(decode(&bytes(bank)), Err(number), "{bank}");
        assert_eq!(raw(&bytes(bank)), Err(number), "{bank}");
    }
}

#[test]
fn refusals_11_and_12_for_every_control_word() {
    let mut bank = bytes("3000 3074257BF7194E4000001A85");
    bank.resize(64, 0xFF);
    for control in 0..=u16::MAX {
        bank[..2].copy_from_slice(&control.to_be_bytes());
        let expected = match control {
            0x0000..=0x07FF => Some(10),
            _ if control & 0x0100 != 0 => Some(11),
            _ if control & 0x0200 != 0 => Some(12),
            0x0800..=0x2FFF => Some(14),
            0x3000..=0x37FF => None,
            0x3800..=0xFFFF => Some(15),
        };
        assert_eq!(decode(&bank).err(), expected, "{control:04X}");
        assert_eq!(raw(&bank).err(), expected.filter(|&number| number == 10));
    }
}

#[test]
fn refusals_13_and_14_for_every_header() {
    let long = [0x36, 0x39, 0x37, 0x3E, 0x3A];
    let short = [0x30, 0x31, 0x32, 0x33, 0x34, 0x2D, 0x2E, 0x2C, 0x35, 0x3C];
    let numeric = [0x3F]; // zeros are no numeric string
    for header in 0..=255 {
        let bank = [&[0x30, 0x00, header][..], &[0; 11]].concat();
        let expected = match header {
            _ if long.contains(&header) => Some(14),
            _ if short.contains(&header) => None,
            _ if numeric.contains(&header) => Some(19),
            _ => Some(13),
        };
        assert_eq!(decode(&bank).err(), expected, "{header:02X}");
    }
}

#[test]
fn refusal_15_for_every_bit_that_is_to_be_zero() {
    for (text, first, words) in [
        ("sscc-96:3.0614141.1234567890", 72, 6),
        ("gsrn-96:3.0614141.1234567890", 72, 6),
        ("gsrnp-96:3.0614141.1234567890", 72, 6),
        ("sgtin-198:3.0614141.812345.a", 198, 13),
        ("sgln-195:3.0614141.12345.a", 195, 13),
        ("grai-170:3.0614141.12345.a", 170, 11),
        ("gdti-174:3.0614141.12345.a", 174, 11),
        ("gdti-113:3.0614141.12345.0", 113, 8),
    ] {
        let good = tag(text).unwrap();
        assert_eq!(good.len(), 2 + 2 * words);
        for bit in first..16 * words {
            let mut bank = good.clone();
            bank[2 + bit / 8] |= 0x80 >> (bit % 8);
            assert_eq!(decode(&bank), Err(15), "{text}, {bit}");
            bank[3] |= 0x1C;
            assert_eq!(decode(&bank), Err(15), "15 comes before 16");
        }
        let mut longer = good.clone();
        longer.extend([0xFF; 9]);
        assert_eq!(decode(&longer), decode(&good), "bytes after the last word");
    }
}

#[test]
fn refusals_16_to_19_in_order() {
    assert_eq!(decode(&bytes("3000 31FFFFFFFFFFFFFFFF000000")), Err(16));
    assert_eq!(decode(&bytes("3000 31FBFFFFFFFFFFFFFF000000")), Err(17));
    assert_eq!(decode(&bytes("3000 31F800003FFFFFFFFF000000")), Err(18));
    assert_eq!(
        decode(&bytes("6800 36F4000003FFFFFFFFFFFFFFFFFFFFFFFFFFFFFFFFFFFFFFFC00")),
        Err(18)
    );
    assert_eq!(
        decode(&bytes("6800 36F400000000003FFFFFFFFFFFFFFFFFFFFFFFFFFFFFFFFFFC00")),
        Err(19)
    );
}

#[test]
fn refusal_19_strings() {
    let good = tag("gdti-174:0.000000.000000.abcdefghijklmnopq").unwrap();
    let group = |bank: &mut Vec<u8>, place: usize, value: u8| {
        for bit in 0..7 {
            let at = 16 + 55 + 7 * place + bit;
            bank[at / 8] &= !(0x80 >> (at % 8));
            bank[at / 8] |= (value >> (6 - bit) & 1) << (7 - at % 8);
        }
    };
    let in_table = |value: u8| value.is_ascii_graphic() && !b"#$@[\\]^`{|}~".contains(&value);
    for place in 0..17 {
        for value in 0..128 {
            let mut bank = good.clone();
            group(&mut bank, place, value);
            let taken = in_table(value) || (value == 0 && place == 16);
            assert_eq!(decode(&bank).err(), (!taken).then_some(19), "{place}, {value}");
        }
        let mut bank = good.clone();
        (place..17).for_each(|later| group(&mut bank, later, 0));
        assert_eq!(decode(&bank).err(), (place == 0).then_some(19), "{place} characters");
    }
}

#[test]
fn the_screen() {
    let (tag, raw) = (&b"tag"[..], &b"raw"[..]);
    for number in 0..=255 {
        let shown = second::screen(tag, raw, number);
        match number {
            0 => assert_eq!(shown, tag),
            11..=19 => assert_eq!(shown, raw),
            _ => assert!(shown.is_empty() && shown.as_ptr() == raw.as_ptr()),
        }
    }
}
