//! The program identity: which lines are of which kind, and the letter of each answer.

mod common;

use common::identity_reply as reply;

const TAG: &str = "urn:epc:tag:sgtin-96:3.0614141.812345.6789";
const IDENTITY: &str = "urn:epc:id:sgtin:0614141.812345.6789";

#[test]
fn tags_and_identities() {
    assert_eq!(reply(TAG.as_bytes()), format!("I {IDENTITY}"));
    assert_eq!(reply(format!("3 {IDENTITY}").as_bytes()), format!("T {TAG}"));
    let controlled = TAG.replace("sgtin-96", "[umi=1][att=xFF]:sgtin-96");
    assert_eq!(reply(controlled.as_bytes()), format!("I {IDENTITY}"));
    assert_eq!(reply(b"urn:epc:tag:"), "N 3");
    assert_eq!(reply(b"urn:epc:tag:["), "N 20");
    assert_eq!(reply(TAG.replace("6789", "007").as_bytes()), "N 7");
    assert_eq!(reply(b"0 urn:epc:id:"), "N 23");
    assert_eq!(reply(format!("3 {IDENTITY}\r").as_bytes()), "N 23");
    assert_eq!(reply(b"0 urn:epc:id:giai:0614141.a"), "N 25");
    for digit in 0..10 {
        let answer = reply(format!("{digit} {IDENTITY}").as_bytes());
        assert_eq!(
            answer,
            if digit < 8 {
                format!("T {TAG}").replace(":3.", &format!(":{digit}."))
            } else {
                "N 24".into()
            }
        );
        let answer = reply(format!("{digit} urn:epc:id:gid:1.2.3").as_bytes());
        assert_eq!(answer, if digit == 0 { "T urn:epc:tag:gid-96:1.2.3" } else { "N 24" });
    }
}

#[test]
fn lines_of_neither_kind() {
    for line in
        ["", " ", "3", "3 ", "X", "0000", "30003074257BF7194E4000001A85", "urn:", "urn:epc:"]
    {
        assert_eq!(reply(line.as_bytes()), "X", "{line}");
    }
    for before in [
        "", " ", "3", " 3 ", "3  ", "33 ", "03 ", "a ", "A ", "-1 ", "3\t", "3.", ": ", "/ ", "\0 ",
    ] {
        assert_eq!(reply(format!("{before}{IDENTITY}").as_bytes()), "X", "{before:?}");
    }
    for line in [
        "urn:epc:tag",
        "urn:epc:raw:96.x00",
        "Urn:epc:tag:gid-96:1.2.3",
        "3 urn:epc:id",
        "3 urn:epc:tag:",
    ] {
        assert_eq!(reply(line.as_bytes()), "X", "{line}");
    }
    assert_eq!(reply(format!("3 {TAG}").as_bytes()), "X");
    assert_eq!(reply(b"\xB2 urn:epc:id:gid:1.2.3"), "X");
}

/// The whole line counts, with the digit and the space.
#[test]
fn longest_lines() {
    let line = |start: &str, length: usize| format!("{start}{:9<1$}", "", length - start.len());
    for (start, number) in [("urn:epc:tag:gid-96:1.2.", "N 8"), ("0 urn:epc:id:gid:1.2.", "N 25")] {
        assert_eq!(reply(line(start, 199).as_bytes()), number);
        assert_eq!(reply(line(start, 200).as_bytes()), number);
        assert_eq!(reply(line(start, 201).as_bytes()), "X");
        assert_eq!(reply(line(start, 5000).as_bytes()), "X");
    }
}
