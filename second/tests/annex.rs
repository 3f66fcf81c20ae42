//! The standard's examples in docs/vectors.tsv, with the corrections noted there.

mod common;

use common::vectors::vectors;
use common::{assert_pair, bytes, decode, encode, raw, refused_text, reply};
use second::tables::SCHEMES;

#[test]
fn texts_and_codes_of_our_schemes_agree() {
    let mut seen = Vec::new();
    for vector in vectors() {
        let (Some(scheme), Some(tag), Some(bank)) = (vector.scheme, &vector.tag, vector.bank())
        else {
            continue;
        };
        assert_eq!(encode(tag), Ok(bank.clone()), "{}", vector.id);
        assert_eq!(decode(&bank), Ok(tag.clone()), "{}", vector.id);
        seen.push(scheme.name);
    }
    assert_eq!(seen.len(), 18);
    let unseen = SCHEMES.iter().map(|scheme| scheme.name).filter(|name| !seen.contains(name));
    assert_eq!(unseen.collect::<Vec<_>>(), [b"gdti-113"], "the standard prints no example of it");
}

#[test]
fn texts_alone_of_our_schemes_are_taken_or_refused_as_noted() {
    let (mut taken, mut refused) = (0, 0);
    for vector in vectors() {
        let (Some(_), Some(tag), None) = (vector.scheme, &vector.tag, &vector.code) else {
            continue;
        };
        match vector.expected("tag") {
            Some(number) => {
                assert_eq!(encode(tag), Err(number), "{}", vector.id);
                refused += 1;
            }
            None => {
                assert_eq!(decode(&encode(tag).unwrap()), Ok(tag.clone()), "{}", vector.id);
                taken += 1;
            }
        }
    }
    assert_eq!((taken, refused), (3, 2));
}

#[test]
fn other_schemes_are_refused() {
    let (mut texts, mut banks) = (0, 0);
    for vector in vectors().iter().filter(|vector| vector.scheme.is_none()) {
        if let Some(tag) = &vector.tag {
            assert_eq!(vector.expected("tag").unwrap_or(3), 3);
            assert_eq!(encode(tag), Err(3), "{}", vector.id);
            texts += 1;
        }
        if let Some(bank) = vector.bank() {
            assert_eq!(vector.expected("bank").unwrap_or(13), 13);
            assert_eq!(decode(&bank), Err(13), "{}", vector.id);
            banks += 1;
        }
    }
    assert_eq!((texts, banks), (9, 23));
}

/// Section 12's tags: without a field, and with an attribute. The text of the second is lost in 001, whose
/// line 5534 speaks of it; 000 has it with another prefix.
#[test]
fn tags_of_section_12() {
    for (prefix, code) in
        [("9521141", "3076451FD46DB64000000190"), ("0614141", "3074257BF46DB64000000190")]
    {
        let rest = format!("sgtin-96:3.{prefix}.112345.400");
        assert_pair(&format!("urn:epc:tag:{rest}"), &bytes(&format!("3000{code}")));
        assert_pair(&format!("urn:epc:tag:[att=x01]:{rest}"), &bytes(&format!("3001{code}")));
        let xpc = format!("urn:epc:tag:[att=x01][xpc=x0004]:{rest}");
        assert_eq!(refused_text(xpc.as_bytes()), (20, 21));
    }
}

#[test]
fn raw_lines_of_the_standard_without_their_control_fields() {
    let code = "1234567890ABCDEF01234567";
    assert_eq!(reply(format!("3401{code}").as_bytes()), format!("R 13 urn:epc:raw:96.x{code}"));
    assert_eq!(raw(&bytes(&format!("3601{code}"))), Ok(format!("urn:epc:raw:96.x{code}")));
    assert_eq!(reply(format!("3601{code}").as_bytes()), format!("R 12 urn:epc:raw:96.x{code}"));
    assert_eq!(raw(&bytes(&format!("31C1{code}"))), Ok(format!("urn:epc:raw:96.xC1.x{code}")));
    assert_eq!(reply(format!("31C1{code}").as_bytes()), format!("R 11 urn:epc:raw:96.xC1.x{code}"));
}
