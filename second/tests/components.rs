//! cpi-96's reference: an integer of at most the row's digits.

mod common;

use common::{assert_pair, bytes, decode, encode};

/// Each row's prefix digits, reference bits and most reference digits, by partition value.
const ROWS: [(usize, usize, usize); 7] =
    [(12, 11, 3), (11, 14, 4), (10, 17, 5), (9, 21, 6), (8, 24, 7), (7, 27, 8), (6, 31, 9)];

fn text(partition: usize, reference: &str) -> String {
    format!("urn:epc:tag:cpi-96:0.{:0<1$}.{reference}.0", "", ROWS[partition].0)
}

/// The bank whose parts are zero but for the partition value and the reference.
fn bank(partition: usize, reference: u64) -> Vec<u8> {
    assert_eq!(reference >> ROWS[partition].1, 0);
    let code = 0x3C << 88 | (partition as u128) << 82 | u128::from(reference) << 31;
    [&[0x30, 0x00], &code.to_be_bytes()[4..]].concat()
}

#[test]
fn the_standard_s_examples() {
    let text = "urn:epc:tag:cpi-96:3.9521141.98765.12345";
    assert_pair(text, &bytes("3000 3C76451FD400C0E680003039"));
    let text = "urn:epc:tag:cpi-96:3.0614141.98765.12345";
    assert_pair(text, &bytes("3000 3C74257BF400C0E680003039"));
}

#[test]
fn every_count_of_digits_in_every_row() {
    for (partition, (_, _, most)) in ROWS.into_iter().enumerate() {
        assert_pair(&text(partition, "0"), &bank(partition, 0));
        for count in 1..=most as u32 {
            for value in [10u64.pow(count - 1), 5 * 10u64.pow(count - 1), 10u64.pow(count) - 1] {
                assert_pair(&text(partition, &value.to_string()), &bank(partition, value));
            }
        }
    }
}

#[test]
fn refusal_6_no_integer_or_too_many_digits() {
    for (partition, (_, bits, most)) in ROWS.into_iter().enumerate() {
        for reference in ["", "00", "007", "05", "a", "1a", "-1", "+1", " 1", "1 ", "%30", "\0"] {
            assert_eq!(encode(&text(partition, reference)), Err(6), "{reference}");
        }
        let filled = format!("{:0>most$}", 7);
        let limit = 10u64.pow(most as u32);
        let numbers =
            [limit, limit + 1, (1 << bits) - 1, 1 << bits, u64::MAX].map(|n| n.to_string());
        let long = ["9".repeat(most + 1), "9".repeat(19), "9".repeat(20), "9".repeat(60)];
        for reference in numbers.iter().chain(&long).chain([&filled]) {
            assert_eq!(encode(&text(partition, reference)), Err(6), "{reference}");
        }
    }
}

#[test]
fn refusal_6_where_the_dot_is_missing() {
    let rest = |rest: &str| encode(&format!("urn:epc:tag:cpi-96:3.0614141.{rest}"));
    for reference in ["", "0", "98765", "98765x", "98765:1"] {
        assert_eq!(rest(reference), Err(6), "{reference}");
    }
    assert_eq!(rest("98765."), Err(7), "an empty serial");
    assert_eq!(rest("98765.1."), Err(7));
    assert_eq!(rest("98765.007"), Err(7));
    assert_eq!(rest(".1"), Err(6));
    assert_eq!(rest("007.x"), Err(6), "6 comes before 7");
}

#[test]
fn refusal_6_follows_the_row_of_the_prefix() {
    let digits = "123456789012";
    for (partition, (prefix, _, most)) in ROWS.into_iter().enumerate() {
        let text = |prefix: usize| {
            format!("urn:epc:tag:cpi-96:3.{}.{}.1", &digits[..prefix], &digits[..most])
        };
        assert!(encode(&text(prefix)).is_ok());
        if partition > 0 {
            assert_eq!(encode(&text(prefix + 1)), Err(6));
        }
        if partition < 6 {
            assert!(encode(&text(prefix - 1)).is_ok());
        }
    }
}

#[test]
fn refusal_18_ten_to_the_power_of_the_digits_or_more() {
    for (partition, (_, bits, most)) in ROWS.into_iter().enumerate() {
        let limit = 10u64.pow(most as u32);
        assert_eq!(decode(&bank(partition, limit - 1)), Ok(text(partition, &"9".repeat(most))));
        for value in [limit, limit + 1, (limit + (1 << bits)) / 2, (1 << bits) - 1] {
            assert_eq!(decode(&bank(partition, value)), Err(18), "{value}");
        }
    }
}

#[test]
fn every_value_of_the_serial_s_bits_is_shown() {
    let largest = "urn:epc:tag:cpi-96:0.000000000000.0.2147483647";
    assert_pair(largest, &bytes("3000 3C000000000000007FFFFFFF"));
    assert_eq!(encode(&largest.replace("2147483647", "2147483648")), Err(8));
}
