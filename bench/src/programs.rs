//! Lines a second of each program, of second in its place and of `cat`, from a file to nowhere.
use crate::codecs::SMALLEST;
use crate::inputs::{bank_of, identity_of, texts, Seeded, SCHEMES};
use std::fs::File;
use std::path::Path;
use std::process::{Command, Stdio};
use std::time::Instant;

const LINES: usize = 1_000_000;
const ROUNDS: usize = 5;

/// So many lines, one behind the other; `write` adds one, made from a tag's text, and is told its number and whether it is to be bad: two of
/// every ten are.
fn lines(write: impl Fn(usize, &[u8], bool, &mut Seeded, &mut Vec<u8>)) -> Vec<u8> {
    let mut seeded = Seeded::new();
    let tags: Vec<Vec<u8>> = SCHEMES.iter().flat_map(|s| texts(s, 700, &mut seeded)).collect();
    let mut lines = Vec::new();
    for i in 0..LINES {
        let tag = &tags[seeded.below(tags.len() as u64) as usize];
        write(i, tag, i % 10 >= 8, &mut seeded, &mut lines);
        lines.push(b'\n');
    }
    lines
}

/// Texts and banks of all schemes by turns; of every ten lines one is a text cut short, and one a bank with a bit changed.
pub fn tag_lines() -> Vec<u8> {
    lines(|i, tag, bad, seeded, lines| {
        if i % 2 == 0 {
            lines.extend_from_slice(&tag[..tag.len() - usize::from(bad) * 5]);
        } else {
            let mut bank = bank_of(tag, SMALLEST);
            let bit = seeded.below(8 * bank.len() as u64) as usize;
            bank[bit / 8] ^= u8::from(bad) << (bit % 8);
            lines.extend(bank.iter().flat_map(|byte| format!("{byte:02X}").into_bytes()));
        }
    })
}

/// Texts and identities of all schemes by turns; of every ten lines one is a text cut short, and one an identity with a byte changed.
pub fn identity_lines() -> Vec<u8> {
    lines(|i, tag, bad, seeded, lines| {
        if i % 2 == 0 {
            lines.extend_from_slice(&tag[..tag.len() - usize::from(bad) * 5]);
        } else {
            lines.extend_from_slice(b"0 ");
            let start = lines.len();
            lines.extend(identity_of(tag));
            let place = start + seeded.below((lines.len() - start) as u64) as usize;
            lines[place] ^= u8::from(bad);
        }
    })
}

/// The seconds that a command takes.
fn run(command: &[&str], from: &Path, to: Stdio) -> f64 {
    let input = File::open(from).expect("the lines were written");
    let began = Instant::now();
    let status = Command::new(command[0]).args(&command[1..]).stdin(input).stdout(to).status();
    let took = began.elapsed().as_secs_f64();
    assert!(status.is_ok_and(|s| s.success()), "{command:?} failed");
    took
}

/// All commands write the same.
fn agree(commands: &[&[&str]], lines: &Path, folder: &Path) {
    let answers = commands.iter().map(|command| {
        let to = folder.join("answers");
        run(command, lines, File::create(&to).expect("a file for the answers").into());
        std::fs::read(&to).expect("the answers")
    });
    let answers: Vec<_> = answers.collect();
    assert!(answers.windows(2).all(|pair| pair[0] == pair[1]), "the programs differ on {lines:?}");
}

/// The command without its folder.
fn shown(command: &[&str]) -> String {
    let name = Path::new(command[0]).file_name().expect("a program").to_string_lossy();
    [&[&*name], &command[1..]].concat().join(" ")
}

pub fn print_lines(folder: &str, lines: &[u8], program: &[&str], second: &[&str]) {
    let folder = Path::new(folder);
    let file = folder.join("lines");
    std::fs::write(&file, lines).expect("a folder to write the lines to");
    agree(&[program, second], &file, folder);

    let commands = [program, second, &["cat"]];
    let mut best = [f64::MAX; 3];
    for _ in 0..ROUNDS {
        for (command, best) in commands.iter().zip(&mut best) {
            *best = best.min(run(command, &file, Stdio::null()));
        }
    }
    println!("| {LINES} lines, {} bytes, through | lines a second | MB a second |", lines.len());
    println!("|---|--:|--:|");
    for (command, seconds) in commands.iter().zip(best) {
        let (name, megabytes) = (shown(command), lines.len() as f64 / 1e6);
        println!("| {name} | {:.0} | {:.0} |", LINES as f64 / seconds, megabytes / seconds);
    }
    println!();
}
