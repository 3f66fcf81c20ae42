//! Document 01's known tags, rows 1 to 14, row 13 as request C-13 of document 02 has it; and document 01's
//! example of the program.

mod common;

use common::{assert_pair, bytes, decode, encode, raw, reply};

const ROW_1: &str = "urn:epc:tag:sgtin-96:3.0614141.812345.6789";
const ROW_1_BANK: &str = "3000 3074257BF7194E4000001A85";
const ROW_6: &str = "urn:epc:tag:sgtin-198:0.0614141.812345.a.b";
const ROW_6_BANK: &str = "6800 3614257BF7194E70AEC4 00000000000000000000000000000000";

#[test]
fn row_1() {
    assert_pair(ROW_1, &bytes(ROW_1_BANK));
}

#[test]
fn row_2() {
    let text = "urn:epc:tag:grai-96:3.0614141.12345.5678";
    assert_pair(text, &bytes("3000 3374257BF40C0E400000162E"));
}

#[test]
fn rows_3_and_4_an_empty_reference() {
    let text = "urn:epc:tag:grai-96:0.000000000001..5";
    assert_pair(text, &bytes("3000 330000000000040000000005"));
    assert_eq!(decode(&bytes("3000 330000000000044000000005")), Err(18));
}

#[test]
fn row_5_the_24_zero_bits() {
    let text = "urn:epc:tag:sscc-96:3.0614141.1234567890";
    assert_pair(text, &bytes("3000 3174257BF4499602D2000000"));
    assert_eq!(decode(&bytes("3000 3174257BF4499602D2000001")), Err(15));
}

#[test]
fn row_6_a_string_with_a_dot() {
    assert_pair(ROW_6, &bytes(ROW_6_BANK));
}

#[test]
fn rows_7_and_8_serials() {
    let serial = |serial: &str| encode(&ROW_1.replace("6789", serial));
    assert_eq!(serial("274877906943"), Ok(bytes("3000 3074257BF7194E7FFFFFFFFF")));
    assert_eq!(serial("274877906944"), Err(8));
    assert_eq!(serial("007"), Err(7));
}

#[test]
fn row_9_escapes() {
    let serial = |serial: &str| encode(&ROW_6.replace("a.b", serial));
    let taken = serial("a%2Fb").unwrap();
    assert_eq!(decode(&taken), Ok(ROW_6.replace("a.b", "a%2Fb")));
    assert_eq!(serial("a%2fb"), Err(7));
    assert_eq!(serial("%41"), Err(7));
}

#[test]
fn row_10_filter_8() {
    assert_eq!(encode(&ROW_1.replace(":3.", ":8.")), Err(4));
}

#[test]
fn rows_11_and_12_partition_and_prefix() {
    assert_eq!(decode(&bytes("3000 307C257BF7194E4000001A85")), Err(16));
    assert_eq!(decode(&bytes("3000 3003FFFFFFFFFC0000000000")), Err(17));
}

#[test]
fn rows_13_and_14_first_words() {
    let first = |bank: &str, word: &str| decode(&bytes(&bank.replacen(&bank[..4], word, 1)));
    let text = "urn:epc:tag:[att=x01]:sgtin-96:3.0614141.812345.6789";
    assert_pair(text, &bytes("3001 3074257BF7194E4000001A85"));
    assert_eq!(first(ROW_1_BANK, "3100"), Err(11));
    assert_eq!(first(ROW_1_BANK, "0000"), Err(10));
    assert_eq!(first(ROW_6_BANK, "3000"), Err(14));
}

#[test]
fn the_example_of_the_program() {
    let answer = |line: &str| reply(line.as_bytes());
    let text = "urn:epc:tag:grai-96:3.0614141.12345.5678";
    assert_eq!(answer(text), "B 30003374257BF40C0E400000162E");
    assert_eq!(answer("30003374257BF40C0E400000162E"), format!("T {text}"));
    let refused = "R 18 urn:epc:raw:96.x330000000000044000000005";
    assert_eq!(answer("3000330000000000044000000005"), refused);
    assert_eq!(answer(""), "N 9");
}

#[test]
fn the_longest_texts() {
    let escapes = "%2F".repeat(20);
    let text = format!("urn:epc:tag:sgtin-198:0.0614141.812345.{escapes}");
    assert_eq!(text.len(), 99);
    assert_eq!(decode(&encode(&text).unwrap()).as_ref(), Ok(&text));
    let text = text.replace("tag:", "tag:[umi=1][att=xFF]:");
    assert_eq!(text.len(), 116);
    assert_eq!(decode(&encode(&text).unwrap()), Ok(text));
    let mut bank = vec![0xFF; 64];
    bank[1] = 0x5C;
    let line = raw(&bank).unwrap();
    assert_eq!(line, format!("urn:epc:raw:496.x5C.x{}", "F".repeat(124)));
    assert_eq!(line.len(), 145);
}
