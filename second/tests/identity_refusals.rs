//! What is refused on the way to an identity and back: the numbers, their limits, which comes first.

mod common;

use common::{identity_of, refused_text, tag_of, TAGS};
use second::tables::*;

/// An identity of each family that a scheme holds.
const IDENTITIES: [&str; 11] = [
    "sgtin:0614141.812345.6789",
    "sscc:0614141.1234567890",
    "sgln:0614141.12345.5678",
    "grai:0614141.12345.5678",
    "giai:0614141.5678",
    "gsrn:0614141.1234567890",
    "gsrnp:0614141.1234567890",
    "gdti:0614141.12345.5678",
    "gid:952056.2718.1414",
    "sgcn:4012345.67890.04711",
    "cpi:0614141.98765.12345",
];

fn number(identity: &str, filter: u32) -> u8 {
    tag_of(format!("urn:epc:id:{identity}").as_bytes(), filter).err().unwrap_or(0)
}

fn assert_numbers(expected: u8, identities: &[&str]) {
    for identity in identities {
        assert_eq!(number(identity, 0), expected, "{identity}");
    }
}

/// A wrong form comes before a wrong filter, which comes before a scheme.
fn assert_order(expected: u8, identities: &[&str]) {
    assert_numbers(expected, identities);
    for identity in identities {
        assert_eq!(number(identity, 9), expected.min(24), "{identity}");
    }
}

/// The identity with other characters for one of its components.
fn replaced(identity: &str, place: usize, other: &str) -> String {
    let (family, body) = identity.split_once(':').unwrap();
    let mut components: Vec<&str> = body.split('.').collect();
    components[place] = other;
    format!("{family}:{}", components.join("."))
}

#[test]
fn tags_are_refused_as_their_banks_are() {
    for (_, tag, _) in TAGS {
        let text = format!("urn:epc:tag:{tag}");
        for cut in 0..text.len() {
            let (before, behind) = text.split_at(cut);
            for wrong in
                [before.to_string(), format!("{before}#{behind}"), format!("{before}0{behind}")]
            {
                let answer = identity_of(wrong.as_bytes());
                match common::encode(&wrong) {
                    Ok(_) => assert!(answer.is_ok(), "{wrong}"),
                    Err(_) => {
                        let refusal = answer.expect_err(&wrong);
                        assert_eq!((refusal.number, refusal.place), refused_text(wrong.as_bytes()));
                    }
                }
            }
        }
    }
}

#[test]
fn other_starts_and_families() {
    assert_order(
        23,
        &[
            "",
            ":",
            "sgtin",
            "sgtin:",
            "SGTIN:0614141.812345.6789",
            "sgtin-96:3.0614141.812345.6789",
        ],
    );
    assert_order(
        23,
        &["itip:9521141.012345.01.02.981", "usdod:CAGEY.5678", "adi:35962.PQ7VZ4.M37GXB92"],
    );
    assert_order(23, &["ginc:9521141.xyz3311cba", "gsin:9521141.123456789", "pgln:9521141.89012"]);
    assert_order(23, &["upui:9521141.089456.51qIgY", "bic:CSQU3054383", "imovn:9176187"]);
    assert_order(23, &["sqtin:9521141.012345.4711", "gsrcnp:0614141.1234567890"]);
    for identity in IDENTITIES {
        for start in
            ["", "urn:epc:id", "urn:epc:id;", "urn:epc:idpat:", "urn:epc:tag:", "URN:EPC:ID:"]
        {
            assert_eq!(tag_of(format!("{start}{identity}").as_bytes(), 0), Err(23));
        }
        for before in [" ", "\0", "3 ", "u", "urn:epc:id:"] {
            let text = format!("{before}urn:epc:id:{identity}");
            assert_eq!(tag_of(text.as_bytes(), 0), Err(23), "{text}");
        }
        let (family, _) = identity.split_once(':').unwrap();
        assert_order(23, &[family, &format!("{family}:"), &format!("{family}.{identity}")]);
    }
}

#[test]
fn components_of_the_wrong_form() {
    for identity in IDENTITIES {
        let (family, body) = identity.split_once(':').unwrap();
        let count = body.split('.').count();
        for place in 0..count {
            for wrong in ["#", " ", "%", "%2f", "\0", "/", "\u{e9}", "a b"] {
                assert_order(23, &[&replaced(identity, place, wrong)]);
            }
        }
        let components: Vec<&str> = body.split('.').collect();
        for fewer in 1..count {
            assert_order(23, &[&format!("{family}:{}", components[..fewer].join("."))]);
        }
        assert_order(23, &[&replaced(identity, 0, ""), &replaced(identity, count - 1, "")]);
    }
}

/// Prefix and reference must have so many digits together: one more or less is no identity. Only 6 to 12
/// digits of a prefix are held, and only some families may lack the reference.
#[test]
fn wrong_totals() {
    for identity in IDENTITIES {
        let family = Family::by_name(identity.split_once(':').unwrap().0.as_bytes()).unwrap();
        let Some(together) = family.together else { continue };
        for prefix in 1..=together {
            let rest = together - prefix;
            let other = |digits: usize| {
                replaced(&replaced(identity, 0, &"0".repeat(prefix)), 1, &"1".repeat(digits))
            };
            let expected = match family.components[1] {
                Component::Padded if rest == 0 => 23,
                _ if (6..=12).contains(&prefix) => 0,
                _ => 25,
            };
            assert_numbers(expected, &[&other(rest)]);
            assert_order(23, &[&other(rest + 1)]);
            if rest > 0 {
                assert_order(23, &[&other(rest - 1)]);
            }
        }
    }
}

/// A prefix that no row has, where the grammar lets it stand.
#[test]
fn prefixes_of_no_row() {
    assert_order(
        25,
        &["sgtin:12345.12345678.1", "sgtin:1.123456789012.1", "sscc:1234567890123.4567"],
    );
    assert_order(
        25,
        &["gsrn:1.1234567890123456", "gsrnp:1234567890123456.7", "sgcn:12345.1234567.1"],
    );
    assert_order(25, &["sgln:12345.1234567.1", "grai:1.12345678901.a", "gdti:12345.1234567.a"]);
    assert_order(25, &["giai:12345.1", "giai:1234567890123.1", "giai:1.1", "cpi:12345.1.1"]);
    assert_order(25, &["cpi:1234567890123.1.1", "cpi:1.1.1"]);
    assert_order(
        23,
        &["sgtin:1234567890123..1", "sscc:12345678901234567.", "sgln:1234567890123..1"],
    );
}

#[test]
fn serials_that_no_scheme_holds() {
    let strings =
        [("sgtin:0614141.812345", 20), ("sgln:0614141.12345", 20), ("grai:0614141.12345", 16)];
    for (start, most) in strings.into_iter().chain([("gdti:0614141.12345", 17)]) {
        for character in ["a", ".", "%2F", "0"] {
            let serial = |count| format!("{start}.{}", character.repeat(count));
            assert_numbers(0, &[&serial(1), &serial(most)]);
            assert_order(25, &[&serial(most + 1), &serial(most + 40)]);
        }
    }
    assert_numbers(0, &["sgcn:4012345.67890.000000000000", "sgcn:4012345.67890.999999999999"]);
    assert_order(23, &["sgcn:4012345.67890.0000000000000", "sgcn:4012345.67890.a"]);
    assert_order(
        23,
        &["sgcn:4012345.67890.1.", "sscc:0614141.1234567890.", "sscc:0614141.12345678a0"],
    );
}

#[test]
fn references_and_serials_of_cpi() {
    assert_numbers(
        0,
        &["cpi:0614141.0.0", "cpi:0614141.99999999.2147483647", "cpi:061414114141.999.1"],
    );
    assert_order(
        25,
        &["cpi:9521141.123ABC.123456789", "cpi:9521141.5PQ7%2FZ43.12345", "cpi:0614141.-.1"],
    );
    assert_order(25, &["cpi:0614141.%23.1", "cpi:0614141.%2F.1", "cpi:0614141.A-%23.1"]);
    assert_order(25, &["cpi:0614141.01.1", "cpi:0614141.00.1", "cpi:0614141.100000000.1"]);
    assert_order(25, &["cpi:061414114141.1000.1", "cpi:061414114141.2047.1"]);
    assert_order(25, &["cpi:0614141.1.2147483648", "cpi:0614141.1.99999999999999999999999"]);
    assert_order(
        23,
        &["cpi:0614141.%2f.1", "cpi:0614141.a.1", "cpi:0614141.#.1", "cpi:0614141./.1"],
    );
    assert_order(
        23,
        &["cpi:0614141.%25.1", "cpi:0614141.%.1", "cpi:0614141..1", "cpi:0614141._.1"],
    );
    assert_order(
        23,
        &["cpi:0614141.1.01", "cpi:0614141.1.", "cpi:0614141.1.a", "cpi:0614141.1.1.1"],
    );
}

#[test]
fn references_of_giai() {
    for row in &ROWS {
        let Integer { limit, .. } = row.integer(IntegerTable::E);
        let giai = |reference: &str| format!("giai:{}.{reference}", "1".repeat(row.prefix.digits));
        assert_numbers(0, &[&giai("0"), &giai(&(limit - 1).to_string())]);
        assert_order(25, &[&giai(&limit.to_string()), &giai("007"), &giai("00"), &giai("32a%2Fb")]);
        assert_order(25, &[&giai("1.2"), &giai(":"), &giai(&"9".repeat(60)), &giai("1a")]);
        assert_order(23, &[&giai(""), &giai("%2f"), &giai("#"), &giai("%41")]);
    }
}

#[test]
fn integers_of_gid() {
    assert_numbers(0, &["gid:0.0.0", "gid:268435455.16777215.68719476735"]);
    assert_order(25, &["gid:268435456.0.0", "gid:0.16777216.0", "gid:0.0.68719476736"]);
    assert_order(25, &["gid:99999999999999999999.0.0", "gid:0.0.18446744073709551616"]);
    assert_order(
        23,
        &["gid:00.0.0", "gid:0.01.0", "gid:0.0.00", "gid:0.0", "gid:0.0.0.0", "gid:..0"],
    );
}

#[test]
fn filters() {
    for identity in IDENTITIES {
        let gid = identity.starts_with("gid");
        for filter in (0..=9).chain([15, 16, 255, 256, 257, 65_536, u32::MAX - 7, u32::MAX]) {
            let taken = filter == 0 || filter <= 7 && !gid;
            assert_eq!(number(identity, filter), if taken { 0 } else { 24 }, "{identity} {filter}");
        }
    }
    assert_eq!(number("gid:268435456.0.0", 1), 24);
    assert_eq!(number("gid:268435456.0.00", 1), 23);
}

/// Every byte in the middle of a string, and every escape in three spellings.
#[test]
fn characters_of_strings() {
    let taken = |serial: &[u8]| {
        let identity = [b"urn:epc:id:grai:0614141.12345.a", serial, b"b"].concat();
        tag_of(&identity, 0).is_ok()
    };
    let plain = (0..=255).filter(|&byte| taken(&[byte])).count();
    assert_eq!(plain, 75);
    let escapes = (0..=255u8).filter(|byte| taken(format!("%{byte:02X}").as_bytes()));
    assert_eq!(escapes.collect::<Vec<u8>>(), b"\"%&/<>?");
    let lower = (0..=255u8).filter(|byte| taken(format!("%{byte:02x}").as_bytes()));
    assert_eq!(lower.collect::<Vec<u8>>(), b"\"%&", "those without a letter");
}
