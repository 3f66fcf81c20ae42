//! Identities of every family and row, from tags and back; the scheme that is chosen; the standard's examples.

mod common;

use common::vectors::vectors;
use common::{encode, identity_of, tag_of, Random, TAGS};
use second::tables::*;

/// The identity of a tag's text from its name on, worked out by hand: another start, the family for the
/// scheme, no filter.
fn identity_by_hand(tag: &str) -> String {
    let (name, parts) = tag.split_once(':').unwrap();
    let (family, _) = name.split_once('-').unwrap();
    let behind = if family == "gid" { parts } else { parts.split_once('.').unwrap().1 };
    format!("urn:epc:id:{family}:{behind}")
}

/// The identity of a tag's text from its name on, and the tag's text of the identity with the same filter;
/// with control fields the identity is the same.
fn assert_both_ways(tag: &str) {
    let (text, identity) = (format!("urn:epc:tag:{tag}"), identity_by_hand(tag));
    assert_eq!(identity_of(text.as_bytes()), Ok(identity.clone()), "{tag}");
    for fields in ["[umi=1]:", "[att=x01]:", "[umi=1][att=xFF]:"] {
        let text = format!("urn:epc:tag:{fields}{tag}");
        assert_eq!(identity_of(text.as_bytes()), Ok(identity.clone()), "{text}");
    }
    let filter = if tag.starts_with("gid") { 0 } else { filter_of(tag) };
    assert_eq!(tag_of(identity.as_bytes(), filter), Ok(text), "{identity}");
}

fn filter_of(tag: &str) -> u32 {
    let (_, parts) = tag.split_once(':').unwrap();
    parts.split_once('.').unwrap().0.parse().unwrap()
}

#[test]
fn a_tag_of_every_scheme() {
    for (_, tag, _) in TAGS.iter().filter(|(_, tag, _)| !tag.starts_with("gdti-113")) {
        assert_both_ways(tag);
    }
}

/// The parts of a scheme's tag in a row, each at its largest but for the last, which is given.
fn tag(scheme: &Scheme, row: &Row, filter: u32, last: &str) -> String {
    let (final_part, before) = scheme.parts.split_last().unwrap();
    let part = |part: &Part| match *part {
        Part::Filter => filter.to_string(),
        Part::Prefix => "9".repeat(row.prefix.digits),
        Part::Reference(table) => "0".repeat(row.reference(table).digits),
        Part::RowInteger(table) => (row.integer(table).limit - 1).to_string(),
        Part::Integer(kind) => (kind.limit - 1).to_string(),
        Part::String { .. } | Part::NumericString(_) => panic!("only a last part is one"),
    };
    let mut parts: Vec<String> = before.iter().map(part).collect();
    let whole = matches!(final_part, Part::Reference(_));
    parts.push(if whole { part(final_part) } else { last.into() });
    format!("{}:{}", scheme.name.escape_ascii(), parts.join("."))
}

/// Last parts that the scheme holds in a row, and that no shorter one of its family does.
fn last_parts(scheme: &Scheme, row: &Row) -> Vec<String> {
    let largest = |kind: Integer| vec!["0".into(), "1".into(), (kind.limit - 1).to_string()];
    match *scheme.parts.last().unwrap() {
        Part::Integer(kind) => largest(kind),
        Part::RowInteger(table) => largest(row.integer(table)),
        Part::NumericString(kind) => vec!["0".into(), "007".into(), "9".repeat(kind.most)],
        Part::String { bits } => {
            let most = bits / CHARACTER_BITS;
            let long = (1u64 << 41).to_string();
            [long, "00".into(), "a.b:c".into(), "%2F".repeat(most), "z".repeat(most)].into()
        }
        _ => vec![String::new()],
    }
}

#[test]
fn every_scheme_at_every_partition_value_and_filter() {
    for scheme in SCHEMES.iter().filter(|scheme| scheme.name != b"gdti-113") {
        for row in &ROWS {
            for last in last_parts(scheme, row) {
                (0..=7).for_each(|filter| assert_both_ways(&tag(scheme, row, filter, &last)));
            }
        }
    }
}

/// What the 96-bit scheme just doesn't hold goes to the long one; a tag of the long one whose serial fits the
/// other comes back as that.
#[test]
fn the_short_scheme_if_it_holds_the_serial() {
    for (family, bits, short, long) in [
        ("sgtin:0614141.812345", 38, "sgtin-96", "sgtin-198"),
        ("sgln:0614141.12345", 41, "sgln-96", "sgln-195"),
        ("grai:0614141.12345", 38, "grai-96", "grai-170"),
        ("gdti:0614141.12345", 41, "gdti-96", "gdti-174"),
    ] {
        let (_, parts) = family.split_once(':').unwrap();
        let chosen = |serial: &str| tag_of(format!("urn:epc:id:{family}.{serial}").as_bytes(), 5);
        let text = |scheme, serial: &str| format!("urn:epc:tag:{scheme}:5.{parts}.{serial}");
        for serial in ["0", "7", "10", &((1u64 << bits) - 1).to_string()] {
            assert_eq!(chosen(serial), Ok(text(short, serial)));
            let identity = identity_of(text(long, serial).as_bytes()).unwrap();
            assert_eq!(tag_of(identity.as_bytes(), 5), Ok(text(short, serial)));
        }
        for serial in ["00", "007", "006847", "a", "1a", "1.", "%25", &(1u64 << bits).to_string()] {
            assert_eq!(chosen(serial), Ok(text(long, serial)));
        }
    }
}

#[test]
fn gdti_113_goes_to_identities_and_is_never_chosen() {
    for (serial, scheme) in
        [("0", "gdti-96"), ("006847", "gdti-174"), ("99999999999999999", "gdti-174")]
    {
        let text = format!("urn:epc:tag:gdti-113:3.9521141.12345.{serial}");
        let identity = identity_of(text.as_bytes()).unwrap();
        assert_eq!(identity, format!("urn:epc:id:gdti:9521141.12345.{serial}"));
        let tag = format!("urn:epc:tag:{scheme}:3.9521141.12345.{serial}");
        assert_eq!(tag_of(identity.as_bytes(), 3), Ok(tag));
    }
}

/// Strings of digits, letters and escapes at any length: what is given back is a tag's text, whose identity is
/// the one that was given.
#[test]
fn random_serials_come_back() {
    let mut random = Random(16);
    let families =
        ["sgtin:0614141.812345", "sgln:061414112345.", "grai:061414.112345", "gdti:06141411.2345"];
    let (mut taken, mut refused) = (0, 0);
    for round in 0..20_000 {
        let pieces = ["0", "1", "9", "a", "Z", ".", ":", "%2F", "%25", "-"];
        let kinds = if round % 2 == 0 { 3 } else { pieces.len() as u64 };
        let count = 1 + random.below(22);
        let serial: String = (0..count).map(|_| pieces[random.below(kinds) as usize]).collect();
        let identity = format!("urn:epc:id:{}.{serial}", families[round % 4]);
        match tag_of(identity.as_bytes(), 7) {
            Ok(tag) => {
                assert!(encode(&tag).is_ok(), "{tag}");
                assert_eq!(identity_of(tag.as_bytes()), Ok(identity));
                taken += 1;
            }
            Err(number) => {
                assert!(number == 25 && count > 16, "{identity}");
                refused += 1;
            }
        }
    }
    assert!(taken > 10_000 && refused > 2_000, "{taken} {refused}");
}

#[test]
fn the_standard_s_identities() {
    let (mut taken, mut not_taken) = (0, 0);
    for vector in vectors() {
        let Some(identity) = &vector.identity else { continue };
        let tag = tag_of(identity.as_bytes(), 0);
        if let Some(number) = vector.expected("pure") {
            assert_eq!(tag, Err(number), "{}", vector.id);
            not_taken += 1;
            continue;
        }
        let tag = tag.unwrap_or_else(|number| panic!("{}: {number}", vector.id));
        assert_eq!(identity_of(tag.as_bytes()).as_ref(), Ok(identity), "{}", vector.id);
        taken += 1;
    }
    assert_eq!((taken, not_taken), (75, 17));
}

#[test]
fn the_standard_s_tags_and_their_identities() {
    let mut seen = 0;
    for vector in vectors().iter().filter(|vector| vector.scheme.is_some()) {
        let (Some(tag), Some(identity)) = (&vector.tag, &vector.identity) else { continue };
        assert_eq!(identity_of(tag.as_bytes()).as_ref(), Ok(identity), "{}", vector.id);
        assert_both_ways(tag.strip_prefix("urn:epc:tag:").unwrap());
        seen += 1;
    }
    assert_eq!(seen, 18);
}
