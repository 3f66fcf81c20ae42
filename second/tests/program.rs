//! The program: lines in, answers out.

mod common;

use common::reply;
use std::io::Write;
use std::process::{Command, Stdio};

fn run(input: Vec<u8>) -> String {
    run_with(&[], input)
}

fn run_with(arguments: &[&str], input: Vec<u8>) -> String {
    let mut program = Command::new(env!("CARGO_BIN_EXE_second"))
        .args(arguments)
        .stdin(Stdio::piped())
        .stdout(Stdio::piped())
        .spawn()
        .unwrap();
    let mut stdin = program.stdin.take().unwrap();
    let writer = std::thread::spawn(move || stdin.write_all(&input).unwrap());
    let output = program.wait_with_output().unwrap();
    writer.join().unwrap();
    assert!(output.status.success());
    String::from_utf8(output.stdout).unwrap()
}

#[test]
fn a_line_feed_ends_a_line_and_starts_none() {
    assert_eq!(run(b"".to_vec()), "");
    assert_eq!(run(b"\n".to_vec()), "N 9\n");
    assert_eq!(run(b"\n\n".to_vec()), "N 9\nN 9\n");
    assert_eq!(run(b"0000".to_vec()), "N 10\n");
    assert_eq!(run(b"0000\n30".to_vec()), "N 10\nN 9\n");
}

#[test]
fn the_argument_names_the_other_program() {
    let lines = b"urn:epc:tag:gid-96:1.2.3\n0 urn:epc:id:gid:1.2.3\n\n0000".to_vec();
    assert_eq!(run(lines.clone()), "B 3000350000001000002000000003\nX\nN 9\nN 10\n");
    let answers = "I urn:epc:id:gid:1.2.3\nT urn:epc:tag:gid-96:1.2.3\nX\nX\n";
    assert_eq!(run_with(&["identity"], lines), answers);
    let unknown = Command::new(env!("CARGO_BIN_EXE_second")).arg("identify").output().unwrap();
    assert!(!unknown.status.success() && unknown.stdout.is_empty());
}

#[test]
fn lines_of_neither_kind() {
    for line in ["0", "000", "3000 ", "30003074257bf7194e4000001a85", "Urn:", "urn", "G0", "\r"] {
        assert_eq!(reply(line.as_bytes()), "X", "{line}");
    }
    assert_eq!(reply(b"\x00\x00"), "X");
    assert_eq!(reply(b"\xC3\x80"), "X");
    assert_eq!(reply(b"30003074257BF7194E4000001A85\r"), "X");
    assert_eq!(reply(b"urn:epc:tag:gid-96:1.2.3\r"), "N 7");
}

#[test]
fn longest_lines() {
    let text =
        |length: usize| format!("urn:epc:tag:gid-96:1.2.{:9<1$}", "", length - 23).into_bytes();
    assert_eq!(reply(&text(199)), "N 8");
    assert_eq!(reply(&text(200)), "N 8");
    assert_eq!(reply(&text(201)), "X");
    assert_eq!(reply(&[b'F'; 126]), "N 9");
    assert_eq!(reply(&[b'F'; 128]), format!("R 11 urn:epc:raw:496.xFF.x{}", "F".repeat(124)));
    assert_eq!(reply(&[b'F'; 130]), "X");
}

#[test]
fn long_lines_are_one_line_each() {
    for length in [199, 200, 201, 202, 203, 65_535, 65_536, 65_537, 300_000] {
        let mut line = b"urn:epc:tag:sgtin-198:0.0614141.812345.".to_vec();
        line.resize(length, b'a');
        let answer = if length > 200 { "X" } else { "N 8" };
        let lines = [&line[..], b"0000", &line[..]].join(&b'\n');
        assert_eq!(run(lines), format!("{answer}\nN 10\n{answer}\n"), "{length}");
    }
}

#[test]
fn many_lines_are_answered_in_order() {
    let line = |number: u64| format!("urn:epc:tag:gid-96:1.2.{number}");
    let input: String = (0..20_000).map(|number| line(number) + "\n").collect();
    let output = run(input.into_bytes());
    for (number, answer) in output.lines().enumerate() {
        assert_eq!(answer, format!("B 30003500000010000020{number:08X}"));
    }
    assert_eq!(output.lines().count(), 20_000);
}
