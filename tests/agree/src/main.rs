//! The proved library and second on the same lines: each is a text, to be written in some word counts and to be turned into an identity;
//! behind a digit and a space, if it has them, it is an identity, to be turned into a tag with some filters; and where it is upper-case
//! hexadecimal, it is a bank too. Both give the same number, place, words, length and output. The lines of the first file must show every
//! place that a refusal can have, those of the second every number of every family.
#[path = "../../../bench/src/codecs.rs"]
mod codecs;
mod expected;
mod identities;
mod place;
mod seen;

use codecs::{identity_to_tag, text_to_bank, Pair, Reply, BANK_TO_TEXT, MOST_WORDS, RAW_LINE, SMALLEST, TAG_TO_IDENTITY};
use identities::{identity_in, Judged, FILTERS};
use place::Place;
use second::tables::{BANK_ROOM, MOST_FILTER, TEXT_ROOM};
use std::collections::BTreeSet;
use std::fmt::Display;

/// A call of both codecs, the least output that it takes, and the others that it is given.
struct Call {
    name: &'static str,
    pair: Pair,
    room: usize,
    others: &'static [usize],
}

const BANK: Call = Call { name: "bank_to_text", pair: BANK_TO_TEXT, room: TEXT_ROOM, others: &[TEXT_ROOM - 1, TEXT_ROOM + MORE] };
const RAW: Call = Call { name: "raw_line", pair: RAW_LINE, ..BANK };
const TAG: Call =
    Call { name: "tag_to_identity", pair: TAG_TO_IDENTITY, room: TEXT_ROOM, others: &[0, TEXT_ROOM - 1, TEXT_ROOM + MORE] };

/// The first word count that is too large.
const TOO_MANY: u32 = MOST_WORDS + 1;

/// The word counts that every text is asked for: 0; each scheme's own, and one less; the most; and larger ones, two of which are 0 in their
/// last 8 or 16 bits.
const ASKED: [u32; 15] = [SMALLEST, 5, 6, 7, 8, 10, 11, 12, 13, MOST_WORDS, TOO_MANY, 255, 256, 65_536, u32::MAX];

/// Text to bank, asked for so many words. To save time, only two counts go into every output: 0, and the first that is too large, since 1
/// comes before 21. The others go into the least.
const fn text(words: u32) -> Call {
    let others: &[usize] = if matches!(words, SMALLEST | TOO_MANY) { &[BANK_ROOM - 1, BANK_ROOM + MORE] } else { &[] };
    Call { name: "text_to_bank", pair: text_to_bank(words), room: BANK_ROOM, others }
}

/// Identity to tag with a filter; the first that is good and the first that is too large go into every output, since 1 comes before all.
const fn identity(filter: u32) -> Call {
    const TOO_LARGE: u32 = MOST_FILTER + 1;
    let others: &[usize] = if matches!(filter, 0 | TOO_LARGE) { TAG.others } else { &[] };
    Call { name: "identity_to_tag", pair: identity_to_tag(filter), room: TEXT_ROOM, others }
}

/// How many bytes the larger output has more than the least.
const MORE: usize = 37;
/// How many missing places are named, and how many bytes of a line are shown.
const NAMED: usize = 10;
const SHOWN: usize = 300;

/// How many calls of the library there were, the places seen, and the numbers of each family.
#[derive(Default)]
struct Tally {
    calls: usize,
    seen: BTreeSet<Place>,
    judged: BTreeSet<Judged>,
}

impl Tally {
    fn line(&mut self, line: &[u8]) -> Result<(), String> {
        for words in ASKED {
            let reply = self.call(&text(words), line).map_err(|what| format!("asked for {words} words, {what}"))?;
            self.seen.extend(seen::in_text(line, words, reply));
        }
        if let Some(bank) = from_hex(line) {
            let reply = self.call(&BANK, &bank)?;
            self.seen.extend(seen::in_bank(&bank, reply));
            self.call(&RAW, &bank)?;
        }
        self.call(&TAG, line)?;
        let text = identity_in(line);
        for filter in FILTERS {
            let reply = self.call(&identity(filter), text).map_err(|what| format!("with filter {filter}, {what}"))?;
            self.judged.extend(Judged::new(text, reply.number));
        }
        Ok(())
    }

    /// The reply of both codecs, into the other outputs and last into the least.
    fn call(&mut self, call: &Call, input: &[u8]) -> Result<Reply, String> {
        call.others.iter().try_for_each(|&room| self.write(call, input, room).map(drop))?;
        self.write(call, input, call.room)
    }

    /// The output holds some bytes before, and then their complements; so no byte that is written passes for one that was there both times.
    fn write(&mut self, call: &Call, input: &[u8], room: usize) -> Result<Reply, String> {
        self.calls += 2;
        agreed(call, input, room, 0x00)?;
        agreed(call, input, room, 0xFF)
    }
}

/// The reply of both codecs, or what differs.
fn agreed(call: &Call, input: &[u8], room: usize, turned: u8) -> Result<Reply, String> {
    let mut ours: Vec<u8> = (0..room).map(|i| (i * 151 + 90) as u8 ^ turned).collect();
    let mut theirs = ours.clone();
    let (reply, other) = (call.pair.proved.give(input, &mut ours), call.pair.second.give(input, &mut theirs));
    let differ = |what: String| Err(format!("{} into {room} bytes: {what}", call.name));
    if reply != other {
        return differ(format!("the library gives {reply:?}, second {other:?}"));
    }
    match ours.iter().zip(&theirs).position(|(one, other)| one != other) {
        Some(i) => differ(format!("the library leaves {:02X} in byte {i}, second {:02X}; {reply:?}", ours[i], theirs[i])),
        None => Ok(reply),
    }
}

/// The bytes of an even number of upper-case hex digits.
fn from_hex(line: &[u8]) -> Option<Vec<u8>> {
    let digit = |c: &u8| b"0123456789ABCDEF".iter().position(|d| d == c);
    let digits: Vec<usize> = line.iter().map(digit).collect::<Option<_>>()?;
    let byte = |pair: &[usize]| (pair.len() == 2).then(|| (16 * pair[0] + pair[1]) as u8);
    digits.chunks(2).map(byte).collect()
}

/// All lines of a file; bytes after the last line feed are a line too.
fn file(path: &str, tally: &mut Tally) -> Result<(), String> {
    let content = std::fs::read(path).map_err(|error| format!("{path}: {error}"))?;
    let lines = content.strip_suffix(b"\n").unwrap_or(&content);
    for (number, line) in (1..).zip(lines.split(|&byte| byte == b'\n')) {
        let shown = line[..line.len().min(SHOWN)].escape_ascii();
        tally.line(line).map_err(|what| format!("{path}, line {number}, \"{shown}\": {what}"))?;
    }
    Ok(())
}

/// An error that names the first of what was expected and not seen, and says how many there are.
fn all_seen<T: Ord + Display>(path: &str, what: &str, expected: &BTreeSet<T>, seen: &BTreeSet<T>) -> Result<(), String> {
    let missing: Vec<String> = expected.difference(seen).map(T::to_string).collect();
    if missing.is_empty() {
        return Ok(());
    }
    let named = &missing[..missing.len().min(NAMED)];
    Err(format!("{path} lacks {} of {} {what}, among them:\n{}", missing.len(), expected.len(), named.join("\n")))
}

fn run(paths: &[String]) -> Result<(), String> {
    let [tags, identities, more @ ..] = paths else {
        return Err("usage: agree TAG-LINES IDENTITY-LINES [MORE..] (tests/agree/run calls it)".into());
    };
    let (places, numbers) = (expected::places(), identities::expected());
    let mut tally = Tally::default();
    file(tags, &mut tally)?;
    all_seen(tags, "places", &places, &tally.seen)?;
    tally.judged.clear();
    file(identities, &mut tally)?;
    all_seen(identities, "numbers of families", &numbers, &tally.judged)?;
    more.iter().try_for_each(|path| file(path, &mut tally))?;
    println!("agree: {} calls, no difference, {} places, {} numbers of families", tally.calls, places.len(), numbers.len());
    Ok(())
}

fn main() {
    let paths: Vec<String> = std::env::args().skip(1).collect();
    if let Err(message) = run(&paths) {
        eprintln!("FAILED: agree: {message}");
        std::process::exit(1);
    }
}
