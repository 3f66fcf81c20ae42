//! The typed tables, written as document 01 writes them, are the rows that stand there; what document
//! 02 says of the schemes that it adds, of the places of refusals, of control fields, of word counts, and
//! of identities, stands in it.

use second::tables::*;

/// How many of the schemes, from the first on, are document 01's.
const BASE: usize = 13;

fn document(name: &str) -> String {
    let folder = concat!(env!("CARGO_MANIFEST_DIR"), "/../docs/");
    std::fs::read_to_string(folder.to_string() + name).unwrap()
}

/// The rows of document 01's table that has this heading.
fn table(heading: &str) -> Vec<String> {
    let document = document("01-scope.md");
    let rows = document.lines().skip_while(|line| *line != heading).skip(2);
    rows.take_while(|line| line.starts_with('|')).map(str::to_string).collect()
}

/// The paragraph of document 02 that begins with a request's number.
fn request(number: &str) -> String {
    let start = format!("**{number}. ");
    document("02-change-requests.md").lines().find(|line| line.starts_with(&start)).unwrap().into()
}

fn part(part: &Part) -> Option<String> {
    match part {
        Part::Filter => Some("F".into()),
        Part::Prefix => None,
        Part::Reference(Table::A) => Some("table A".into()),
        Part::Reference(Table::B) => Some("table B".into()),
        Part::Reference(Table::C) => Some("table C".into()),
        Part::Reference(Table::D) => Some("table D".into()),
        Part::RowInteger(IntegerTable::E) => Some("table E".into()),
        Part::RowInteger(IntegerTable::Cpi) => Some("its own table".into()),
        Part::Integer(integer) => Some(format!("integer {}", integer.bits)),
        Part::String { bits } => Some(format!("string {bits}")),
        Part::NumericString(NumericString { bits, most }) => Some(format!("digits {bits} {most}")),
    }
}

fn parts(scheme: &Scheme) -> String {
    let mut parts: Vec<String> = scheme.parts.iter().filter_map(part).collect();
    if scheme.zeros > 0 {
        parts.push(format!("{} zero bits", scheme.zeros));
    }
    match parts.join(", ") {
        three if three == "integer 28, integer 24, integer 36" => {
            "integers 28, 24, 36 (no filter)".into()
        }
        parts => parts,
    }
}

#[test]
fn schemes() {
    let typed = SCHEMES[..BASE].iter().map(|scheme| {
        let name = std::str::from_utf8(scheme.name).unwrap();
        let Scheme { header, bits, words, .. } = scheme;
        format!("| {name} | {header:02X} | {bits} | {words} | {} |", parts(scheme))
    });
    let heading = "| Scheme | Header | Bits | Words | Parts after the header |";
    assert_eq!(typed.collect::<Vec<_>>(), table(heading));
}

#[test]
fn rows() {
    let cell = |column: &Padded| format!("{}/{}", column.bits, column.digits);
    let typed = ROWS.iter().enumerate().map(|(partition, row)| {
        let references = row.references.iter().map(cell).collect::<Vec<_>>().join(" | ");
        let (prefix, integer) = (cell(&row.prefix), row.integer(IntegerTable::E).bits);
        format!("| {partition} | {prefix} | {references} | {integer} |")
    });
    let heading = "| P | Prefix bits/digits | A bits/digits | B | C | D | E bits |";
    assert_eq!(typed.collect::<Vec<_>>(), table(heading));
}

#[test]
fn schemes_of_document_02() {
    let [gdti, sgcn, cpi] = &SCHEMES[BASE..] else { panic!("three schemes") };
    let named = |scheme: &Scheme, header: &str, bits: &str| {
        format!("{} ({header}{:02X}{bits})", scheme.name.escape_ascii(), scheme.header)
    };
    let bits = format!(", {} bits", gdti.bits);
    let names = [named(gdti, "header ", &bits), named(sgcn, "", ""), named(cpi, "", "")];
    assert_eq!([sgcn.bits, cpi.bits], [96, 96], "as their names say");
    let request = request("C-11");
    assert!(request.contains(&format!("{}, {} and {}", names[0], names[1], names[2])));
    assert!(
        request.contains("; 58 bits and up to 17 digits, 41 bits and up to 12. Both use table D.")
    );
    assert_eq!(parts(gdti), "F, table D, digits 58 17");
    assert_eq!(parts(sgcn), "F, table D, digits 41 12");
    assert!(request.contains("cpi-96 has its own partition table"));
    assert!(request.contains("and an integer serial of 31 bits"));
    assert_eq!(parts(cpi), "F, its own table, integer 31");
}

/// Prefix and reference have 51 bits and 15 digits between them in every row of cpi-96's own table.
#[test]
fn rows_of_document_02() {
    assert!(request("C-14").contains("51 for cpi-96"));
    for row in &ROWS {
        let Integer { bits, limit, .. } = row.integer(IntegerTable::Cpi);
        assert_eq!(row.prefix.bits + bits, 51);
        assert_eq!(limit, 10u64.pow(15 - row.prefix.digits as u32));
    }
}

/// The addresses that are places, where document 02 names them; 12's is C-13's.
#[test]
fn places_of_document_02() {
    let (count, toggle, xpc) = (address::WORD_COUNT, address::TOGGLE, address::XPC);
    let before = request("C-12");
    assert!(before.contains(&format!("for 10 to 12 it is {count:X}h, {toggle:X}h and 15h")));
    assert!(
        before.contains(&format!("for 13 it is {:X}h and for 14 it is {count:X}h", address::CODE))
    );
    let bit = format!("{} is now given for bit {xpc:X}h only, with place {xpc:X}h", refusal::XPC);
    assert!(request("C-13").contains(&bit));
}

/// The bits of the control word from an address to another.
fn bits(first: usize, last: usize) -> u16 {
    (first..=last).map(|address| 1 << (0x1F - address)).sum()
}

#[test]
fn control_fields_of_document_02() {
    let request = request("C-13");
    assert!(request.contains("sets bit 15h and bits 18h to 1Fh from the two fields"));
    assert_eq!((control::UMI, control::ATT), (bits(0x15, 0x15), bits(0x18, 0x1F)));
    assert_eq!(control::XPC, bits(address::XPC, address::XPC));
    assert_eq!(control::TOGGLE, bits(address::TOGGLE, address::TOGGLE));
    let (number, start, name) = (refusal::CONTROL_FIELDS, refusal::START, refusal::NAME);
    assert!(request.contains(&format!("new {number}, between {start} and {name}")));
}

#[test]
fn word_counts_of_document_02() {
    let request = request("C-15");
    assert!(request.contains(&format!("is told the W to write, {SMALLEST} for the smallest")));
    let (fewer, ones) = (refusal::WORDS, refusal::NOT_ZERO);
    assert!(request.contains(&format!(
        "{fewer} only for fewer words than the scheme needs; {ones} also covers the further words"
    )));
    let (many, after) = (refusal::TOO_MANY_WORDS, refusal::OUTPUT);
    assert!(request.contains(&format!(
        "new {many}, given right after {after} in text to bank, if the W asked for is above {MOST_WORDS}"
    )));
    let (few, after) = (refusal::TOO_FEW_WORDS, refusal::LAST_SIZE);
    assert!(request.contains(&format!(
        "new {few}, after {after}, if it is neither {SMALLEST} nor at least the scheme's count"
    )));
    assert_eq!(usize::from(u16::MAX >> control::WORD_COUNT_SHIFT), MOST_WORDS);
    assert_eq!(BANK_ROOM, WORD_BYTES * (1 + MOST_WORDS));
}

#[test]
fn families_of_document_02() {
    let request = request("C-16");
    let names = FAMILIES.each_ref().map(|family| family.name.escape_ascii().to_string());
    let (last, before) = names.split_last().unwrap();
    assert!(request.contains(&format!("The families are {} and {last}.", before.join(", "))));
    let (form, filter, scheme) = (refusal::IDENTITY, refusal::GIVEN_FILTER, refusal::NO_SCHEME);
    assert!(request.contains(&format!("new {form}, not a text of a listed family")));
    assert!(
        request.contains(&format!("; {filter}, filter above {MOST_FILTER}, or not 0 for gid; "))
    );
    assert!(request.contains(&format!("; {scheme}, no scheme we have holds it; in that order")));
}
