//! The figures of docs/FIGURES.md, as tables in Markdown: each call on each scheme, without and with control fields, both ways with long
//! banks, identities both ways and refused, long texts, and the programs on lines.
mod codecs;
mod inputs;
mod programs;
mod timing;

use codecs::{identity_to_tag, text_to_bank, Pair, BANK_TO_TEXT, MOST_WORDS, RAW_LINE, SMALLEST, TAG_TO_IDENTITY};
use inputs::{bank_of, hostile, identity_of, malformed, texts, with_fields, with_short_prefix, Seeded, HOSTILE, SCHEMES};
use programs::{identity_lines, print_lines, tag_lines};
use timing::{measure, Case, Times};

/// How many tags of a scheme are gone through: too many for the processor to learn their branches.
const TAGS: usize = 2100;

/// The schemes of the long banks: one of 96 bits, and one with a string.
const LONG: [&str; 2] = ["sgtin-96", "sgtin-198"];

const LENGTHS: [usize; 5] = [100, 1_000, 10_000, 100_000, 1_000_000];

/// The inputs go one behind the other in memory, and stay: a row must not depend on where those of an earlier table stood.
fn case(labels: [&str; 2], calls: Pair, inputs: Vec<Vec<u8>>) -> Case {
    let mut rest: &[u8] = inputs.concat().leak();
    let lent = inputs.iter().map(|input| rest.split_off(..input.len()).expect("all inputs are in it"));
    Case { labels: labels.map(String::from).to_vec(), inputs: lent.collect(), calls }
}

/// The name of a scheme and its tags' texts.
type Tags = (&'static str, Vec<Vec<u8>>);

/// Each scheme's tags, the same in every run.
fn tags() -> Vec<Tags> {
    let mut seeded = Seeded::new();
    SCHEMES.iter().map(|s| (s.name, texts(s, TAGS, &mut seeded))).collect()
}

/// The same with both control fields.
fn tags_with_fields() -> Vec<Tags> {
    let (mut tags, mut seeded) = (tags(), Seeded::new());
    for text in tags.iter_mut().flat_map(|(_, texts)| texts) {
        *text = with_fields(text, &mut seeded);
    }
    tags
}

/// A call on each scheme's texts.
fn on_texts(call: &str, calls: Pair, tags: &[Tags]) -> Vec<Case> {
    tags.iter().map(|(name, texts)| case([call, name], calls, texts.clone())).collect()
}

/// A call on each scheme's banks of so many words.
fn on_banks(call: &str, calls: Pair, words: u32, tags: &[Tags]) -> Vec<Case> {
    let banks = |texts: &Vec<Vec<u8>>| texts.iter().map(|text| bank_of(text, words)).collect();
    tags.iter().map(|(name, texts)| case([call, name], calls, banks(texts))).collect()
}

/// Each call on each scheme.
fn calls() -> Vec<Case> {
    let tags = tags();
    let mut cases = on_texts("text_to_bank", text_to_bank(SMALLEST), &tags);
    cases.extend(on_banks("bank_to_text", BANK_TO_TEXT, SMALLEST, &tags));
    cases.extend(on_banks("raw_line", RAW_LINE, SMALLEST, &tags));
    cases
}

/// Both ways with both control fields, which the raw line leaves out.
fn calls_with_fields() -> Vec<Case> {
    let tags = tags_with_fields();
    let mut cases = on_texts("text_to_bank, both fields", text_to_bank(SMALLEST), &tags);
    cases.extend(on_banks("bank_to_text, both fields", BANK_TO_TEXT, SMALLEST, &tags));
    cases
}

/// Both ways with banks of the most words, zeros in the further ones.
fn calls_with_long_banks() -> Vec<Case> {
    let mut tags = tags();
    tags.retain(|(name, _)| LONG.contains(name));
    let mut cases = on_texts("text_to_bank, 31 words", text_to_bank(MOST_WORDS), &tags);
    cases.extend(on_banks("bank_to_text, 31 words", BANK_TO_TEXT, MOST_WORDS, &tags));
    cases
}

/// Each scheme's tags as identities.
fn identities(tags: &[Tags]) -> Vec<Tags> {
    tags.iter().map(|(name, texts)| (*name, texts.iter().map(|text| identity_of(text)).collect())).collect()
}

/// Identities both ways, with filter 0, which gid takes too. Those of a long scheme whose serials are short, and those of gdti-113, go to
/// another scheme.
fn calls_of_identities() -> Vec<Case> {
    let tags = tags();
    let mut cases = on_texts("tag_to_identity", TAG_TO_IDENTITY, &tags);
    cases.extend(on_texts("identity_to_tag", identity_to_tag(0), &identities(&tags)));
    cases
}

/// Identities of all schemes that are refused, each changed for it. gid, which has no rows, has no 25 of this kind.
fn refused_identities() -> Vec<Case> {
    let mut good = identities(&tags());
    let mut cases = vec![refused(23, 0, "all", &good, malformed), refused(24, 8, "all", &good, <[u8]>::to_vec)];
    good.retain(|(name, _)| *name != "gid-96");
    cases.push(refused(25, 0, "all but gid-96", &good, with_short_prefix));
    cases
}

fn refused(number: u32, filter: u32, whose: &str, identities: &[Tags], change: fn(&[u8]) -> Vec<u8>) -> Case {
    let some = identities.iter().flat_map(|(_, texts)| texts.iter().step_by(SCHEMES.len()));
    let inputs: Vec<Vec<u8>> = some.map(|text| change(text)).collect();
    let calls = identity_to_tag(filter);
    assert!(inputs.iter().all(|text| calls.second.give(text, &mut [0; 160]).number == number));
    case([&format!("identity_to_tag, {number}"), whose], calls, inputs)
}

/// Text to bank on long texts.
fn growth() -> Vec<Case> {
    let of = |(name, start, repeated): (&str, &str, &str), length: usize| {
        let text = hostile(start, repeated, length);
        case([name, &length.to_string()], text_to_bank(SMALLEST), vec![text])
    };
    HOSTILE.iter().flat_map(|&kind| LENGTHS.map(|length| of(kind, length))).collect()
}

fn ratio(t: Times) -> f64 {
    t.proved / t.second
}

fn print_calls(cases: &[Case]) {
    println!("| Call | Scheme | ns a call | calls a second | second: ns a call | calls a second | ratio |");
    println!("|---|---|--:|--:|--:|--:|--:|");
    let times = measure(cases);
    for (case, &t) in cases.iter().zip(&times) {
        let (a, b) = (t.proved, t.second);
        print!("| {} | {a:.1} | {:.0} | ", case.labels.join(" | "), 1e9 / a);
        println!("{b:.1} | {:.0} | {:.2} |", 1e9 / b, ratio(t));
    }
    let largest = times.iter().map(|&t| ratio(t)).fold(0.0, f64::max);
    println!("\nThe largest ratio is {largest:.2}.\n");
}

fn print_growth() {
    let cases = growth();
    println!("| Text to bank, a text of | bytes | ns a call | ns a byte | second: ns a call | ns a byte | ratio |");
    println!("|---|--:|--:|--:|--:|--:|--:|");
    for (case, &t) in cases.iter().zip(&measure(&cases)) {
        let (a, b, n) = (t.proved, t.second, case.inputs[0].len() as f64);
        print!("| {} | {a:.0} | {:.3} | ", case.labels.join(" | "), a / n);
        println!("{b:.0} | {:.3} | {:.2} |", b / n, ratio(t));
    }
    println!();
}

/// The folder for the lines, the programs of the proved codec, and second's.
fn main() {
    let arguments: Vec<String> = std::env::args().skip(1).collect();
    let [folder, tagline, identity, second] = &arguments[..] else {
        eprintln!("usage: bench FOLDER TAGLINE IDENTITY SECOND (bench/run calls it)");
        std::process::exit(2);
    };
    print_calls(&calls());
    print_calls(&calls_with_fields());
    print_calls(&calls_with_long_banks());
    print_calls(&calls_of_identities());
    print_calls(&refused_identities());
    print_growth();
    print_lines(folder, &tag_lines(), &[tagline], &[second]);
    print_lines(folder, &identity_lines(), &[identity], &[second, "identity"]);
}
