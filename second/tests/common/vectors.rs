//! The rows of docs/vectors.tsv, with the corrections noted there.

use super::bytes;
use second::tables::Scheme;

pub struct Vector {
    pub id: String,
    pub scheme: Option<&'static Scheme>,
    pub tag: Option<String>,
    pub code: Option<String>,
    pub identity: Option<String>,
    note: String,
}

impl Vector {
    fn new(line: &str) -> Self {
        let cells: Vec<&str> = line.split('\t').collect();
        let [id, _, scheme, tag, code, identity, note] = cells[..] else { panic!("{line}") };
        let cell = |name: &str, printed: &str| {
            let fixed = token(note, &format!("{{FIX {name}="));
            Some(fixed.unwrap_or(printed).to_string()).filter(|cell| cell != "-")
        };
        Vector {
            id: id.to_string(),
            scheme: Scheme::by_name(scheme.as_bytes()),
            tag: cell("tag_uri", tag),
            code: cell("code_hex", code),
            identity: cell("pure", identity),
            note: note.to_string(),
        }
    }

    /// The refusal that the note expects.
    pub fn expected(&self, call: &str) -> Option<u8> {
        token(&self.note, &format!("{{EXPECT {call}=")).map(|number| number.parse().unwrap())
    }

    /// The bank of the printed code: zeros fill its last word, or are cut off past the scheme's.
    pub fn bank(&self) -> Option<Vec<u8>> {
        let code = self.code.as_ref()?;
        let words = self.scheme.map_or(code.len().div_ceil(4), |scheme| scheme.words);
        let (kept, cut) = code.split_at(code.len().min(4 * words));
        assert!(cut.bytes().all(|digit| digit == b'0'), "{}", self.id);
        Some(bytes(&format!("{:04X}{:0<width$}", words << 11, kept, width = 4 * words)))
    }
}

/// What stands in a note between the start of a token and its closing brace.
fn token<'a>(note: &'a str, start: &str) -> Option<&'a str> {
    note.split_once(start).map(|(_, rest)| rest.split_once('}').unwrap().0)
}

pub fn vectors() -> Vec<Vector> {
    let path = concat!(env!("CARGO_MANIFEST_DIR"), "/../docs/vectors.tsv");
    let file = std::fs::read_to_string(path).unwrap();
    file.lines().skip(1).map(Vector::new).collect()
}
