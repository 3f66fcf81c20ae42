//! What is measured: tags of each scheme in every row of its table, without control fields and with both, in banks of any word count, their
//! identities, and hostile texts of any length.

use crate::codecs::{text_to_bank, Pair, TAG_TO_IDENTITY};

/// What stands behind the company prefix, with its digits or bits (docs/01-scope.md, "The thirteen schemes", and request C-11 of
/// docs/02-change-requests.md).
enum Parts {
    Integer { together: usize, bits: u32 },
    String { together: usize, most: usize },
    NumericString { together: usize, most: usize },
    Alone { together: usize },
    Asset,
    Component { together: usize, bits: u32 },
    Integers,
}

pub struct Scheme {
    pub name: &'static str,
    parts: Parts,
}

/// `together` is how many digits prefix and reference have between them, or may have.
#[rustfmt::skip]
pub const SCHEMES: [Scheme; 16] = [
    Scheme { name: "sgtin-96", parts: Parts::Integer { together: 13, bits: 38 } },
    Scheme { name: "sgtin-198", parts: Parts::String { together: 13, most: 20 } },
    Scheme { name: "sscc-96", parts: Parts::Alone { together: 17 } },
    Scheme { name: "sgln-96", parts: Parts::Integer { together: 12, bits: 41 } },
    Scheme { name: "sgln-195", parts: Parts::String { together: 12, most: 20 } },
    Scheme { name: "grai-96", parts: Parts::Integer { together: 12, bits: 38 } },
    Scheme { name: "grai-170", parts: Parts::String { together: 12, most: 16 } },
    Scheme { name: "giai-96", parts: Parts::Asset },
    Scheme { name: "gsrn-96", parts: Parts::Alone { together: 17 } },
    Scheme { name: "gsrnp-96", parts: Parts::Alone { together: 17 } },
    Scheme { name: "gdti-96", parts: Parts::Integer { together: 12, bits: 41 } },
    Scheme { name: "gdti-174", parts: Parts::String { together: 12, most: 17 } },
    Scheme { name: "gid-96", parts: Parts::Integers },
    Scheme { name: "gdti-113", parts: Parts::NumericString { together: 12, most: 17 } },
    Scheme { name: "sgcn-96", parts: Parts::NumericString { together: 12, most: 12 } },
    Scheme { name: "cpi-96", parts: Parts::Component { together: 15, bits: 31 } },
];

const PLAIN: &[u8] = b"!'()*+,-.0123456789:;=ABCDEFGHIJKLMNOPQRSTUVWXYZ_abcdefghijklmnopqrstuvwxyz";
const ESCAPES: [&str; 7] = ["%22", "%25", "%26", "%2F", "%3C", "%3E", "%3F"];

/// Numbers that are the same in every run.
pub struct Seeded(u64);

impl Seeded {
    pub fn new() -> Self {
        Seeded(0x9E37_79B9_7F4A_7C15)
    }

    pub fn below(&mut self, n: u64) -> u64 {
        self.0 ^= self.0 << 13;
        self.0 ^= self.0 >> 7;
        self.0 ^= self.0 << 17;
        (self.0 >> 11) % n
    }

    fn digits(&mut self, n: usize) -> String {
        (0..n).map(|_| char::from(b'0' + self.below(10) as u8)).collect()
    }

    /// A number of any size below 2 to the power of `bits`.
    fn integer(&mut self, bits: u32) -> u64 {
        let bits = 1 + self.below(bits.into());
        self.below(1 << bits)
    }

    /// A number of any size with at most so many digits.
    fn short(&mut self, most: usize) -> u64 {
        let digits = 1 + self.below(most as u64);
        self.below(10u64.pow(digits as u32))
    }

    fn numeric_string(&mut self, most: usize) -> String {
        let count = 1 + self.below(most as u64);
        self.digits(count as usize)
    }

    fn string(&mut self, most: usize) -> String {
        let count = 1 + self.below(most as u64);
        (0..count).map(|_| self.character()).collect()
    }

    fn character(&mut self) -> String {
        let n = self.below(82) as usize;
        match PLAIN.get(n) {
            Some(&c) => char::from(c).into(),
            None => ESCAPES[n - PLAIN.len()].into(),
        }
    }
}

/// The text of a tag, with a company prefix of so many digits.
fn text(scheme: &Scheme, prefix_digits: usize, seeded: &mut Seeded) -> String {
    let company = format!("{}.{}", seeded.below(8), seeded.digits(prefix_digits));
    let parts = match scheme.parts {
        Parts::Integer { together, bits } => {
            let reference = seeded.digits(together - prefix_digits);
            format!("{company}.{reference}.{}", seeded.integer(bits))
        }
        Parts::String { together, most } => {
            let reference = seeded.digits(together - prefix_digits);
            format!("{company}.{reference}.{}", seeded.string(most))
        }
        Parts::NumericString { together, most } => {
            let reference = seeded.digits(together - prefix_digits);
            format!("{company}.{reference}.{}", seeded.numeric_string(most))
        }
        Parts::Alone { together } => format!("{company}.{}", seeded.digits(together - prefix_digits)),
        Parts::Asset => format!("{company}.{}", seeded.integer(42)),
        Parts::Component { together, bits } => {
            let reference = seeded.short(together - prefix_digits);
            format!("{company}.{reference}.{}", seeded.integer(bits))
        }
        Parts::Integers => format!("{}.{}.{}", seeded.integer(28), seeded.integer(24), seeded.integer(36)),
    };
    format!("urn:epc:tag:{}:{parts}", scheme.name)
}

/// So many texts of a scheme, in every row alike.
pub fn texts(scheme: &Scheme, count: usize, seeded: &mut Seeded) -> Vec<Vec<u8>> {
    (0..count).map(|i| text(scheme, 6 + i % 7, seeded).into_bytes()).collect()
}

/// The text of a tag, with both control fields put before its name.
pub fn with_fields(text: &[u8], seeded: &mut Seeded) -> Vec<u8> {
    let (start, named) = text.split_at("urn:epc:tag:".len());
    let fields = format!("[umi=1][att=x{:02X}]:", 1 + seeded.below(255));
    [start, fields.as_bytes(), named].concat()
}

/// The bank of a text that is a tag's, asked for in so many words.
pub fn bank_of(text: &[u8], words: u32) -> Vec<u8> {
    written(text_to_bank(words), text)
}

/// The identity of a text that is a tag's.
pub fn identity_of(text: &[u8]) -> Vec<u8> {
    written(TAG_TO_IDENTITY, text)
}

fn written(call: Pair, text: &[u8]) -> Vec<u8> {
    let mut out = [0; 160];
    let reply = call.proved.give(text, &mut out);
    assert_eq!(reply.number, 0, "{}", String::from_utf8_lossy(text));
    out[..reply.length].to_vec()
}

/// The identity with a byte behind it that no component has.
pub fn malformed(identity: &[u8]) -> Vec<u8> {
    [identity, b"#"].concat()
}

/// The identity with its first dot behind five digits: good by the grammar, but no row has such a prefix.
pub fn with_short_prefix(identity: &[u8]) -> Vec<u8> {
    let dot = identity.iter().position(|&byte| byte == b'.').expect("a dot behind the prefix");
    let (before, behind) = (&identity[..dot], &identity[dot + 1..]);
    let colon = before.iter().rposition(|&byte| byte == b':').expect("a family's colon");
    let (five, more) = before.split_at(colon + 1 + 5);
    [five, b".", more, behind].concat()
}

/// What repeats, and before what: each text is wrong or too long only at its very end, but for the control fields, of which the second
/// is wrong.
pub const HOSTILE: [(&str, &str, &str); 8] = [
    ("escapes", "urn:epc:tag:sgtin-198:0.0614141.812345.", "%2F"),
    ("letters", "urn:epc:tag:sgtin-198:0.0614141.812345.", "A"),
    ("dots", "urn:epc:tag:sgtin-198:0.0614141.812345.", "."),
    ("digits in a string", "urn:epc:tag:sgtin-198:0.0614141.812345.", "7"),
    ("digits in a numeric string", "urn:epc:tag:gdti-113:3.0614141.12345.", "7"),
    ("digits of a serial", "urn:epc:tag:sgtin-96:3.0614141.812345.", "7"),
    ("digits of a prefix", "urn:epc:tag:sgtin-96:3.", "7"),
    ("control fields", "urn:epc:tag:", "[umi=1]"),
];

/// A text of about `length` bytes.
pub fn hostile(start: &str, repeated: &str, length: usize) -> Vec<u8> {
    let times = (length - start.len()) / repeated.len();
    format!("{start}{}", repeated.repeat(times)).into_bytes()
}
