//! The schemes: their parts in order, and the rows of the partition tables.

use super::refusal;

/// A number of so many bits, written with so many digits.
#[derive(Clone, Copy)]
pub struct Padded {
    pub bits: usize,
    pub digits: usize,
}

/// A number written without leading zeros and below a limit, and its refusals in a text.
#[derive(Clone, Copy)]
pub struct Integer {
    pub bits: usize,
    pub limit: u64,
    pub form: u8,
    pub size: u8,
}

/// 1 to `most` digits; with a 1 put before them they are one number of so many bits.
#[derive(Clone, Copy)]
pub struct NumericString {
    pub bits: usize,
    pub most: usize,
}

/// One of the partition tables whose reference is zero-filled.
#[derive(Clone, Copy)]
pub enum Table {
    A,
    B,
    C,
    D,
}

/// One of the partition tables whose reference is an integer: table E, and cpi-96's own.
#[derive(Clone, Copy)]
pub enum IntegerTable {
    E,
    Cpi,
}

/// A row of the partition tables; `references` holds the columns A to D, `integers` those of table E
/// and of cpi-96's own.
pub struct Row {
    pub prefix: Padded,
    pub references: [Padded; 4],
    pub integers: [Integer; 2],
}

impl Row {
    pub fn reference(&self, table: Table) -> Padded {
        self.references[table as usize]
    }

    pub fn integer(&self, table: IntegerTable) -> Integer {
        self.integers[table as usize]
    }

    /// The partition value of the row whose prefix has so many digits.
    pub fn partition(prefix_digits: usize) -> Option<usize> {
        ROWS.iter().position(|row| row.prefix.digits == prefix_digits)
    }
}

/// The rows by partition value; 7 has none.
pub static ROWS: [Row; 7] = [
    row((40, 12), [(4, 1), (18, 5), (4, 0), (1, 0)], 42, (11, 3)),
    row((37, 11), [(7, 2), (21, 6), (7, 1), (4, 1)], 45, (14, 4)),
    row((34, 10), [(10, 3), (24, 7), (10, 2), (7, 2)], 48, (17, 5)),
    row((30, 9), [(14, 4), (28, 8), (14, 3), (11, 3)], 52, (21, 6)),
    row((27, 8), [(17, 5), (31, 9), (17, 4), (14, 4)], 55, (24, 7)),
    row((24, 7), [(20, 6), (34, 10), (20, 5), (17, 5)], 58, (27, 8)),
    row((20, 6), [(24, 7), (38, 11), (24, 6), (21, 6)], 62, (31, 9)),
];

/// A part of a scheme after its header, that a text writes.
#[derive(Clone, Copy)]
pub enum Part {
    Filter,
    /// The partition value and the company prefix; they pick the row.
    Prefix,
    Reference(Table),
    RowInteger(IntegerTable),
    Integer(Integer),
    String {
        bits: usize,
    },
    NumericString(NumericString),
}

impl Part {
    /// The refusal of a text whose part has the wrong form.
    pub fn form(&self) -> u8 {
        match self {
            Part::Filter => refusal::FILTER,
            Part::Prefix => refusal::FIRST,
            Part::Reference(_) | Part::RowInteger(IntegerTable::Cpi) => refusal::SECOND,
            Part::Integer(integer) => integer.form,
            Part::RowInteger(IntegerTable::E) | Part::String { .. } | Part::NumericString(_) => {
                refusal::LAST_FORM
            }
        }
    }
}

pub struct Scheme {
    pub name: &'static [u8],
    pub header: u8,
    pub bits: usize,
    /// How many it needs; a bank may have more.
    pub words: usize,
    pub parts: &'static [Part],
    /// Zero bits after the last part, that no text writes.
    pub zeros: usize,
}

impl Scheme {
    /// The code bits from here to the end of the bank's last word are zero.
    pub fn zero_from(&self) -> usize {
        self.bits - self.zeros
    }

    /// What its name has before the hyphen.
    pub fn family(&self) -> &'static [u8] {
        self.name.split(|&byte| byte == b'-').next().unwrap_or(self.name)
    }

    pub fn has_filter(&self) -> bool {
        matches!(self.parts, [Part::Filter, ..])
    }

    /// The parts that an identity has too.
    pub fn behind_filter(&self) -> &'static [Part] {
        &self.parts[usize::from(self.has_filter())..]
    }

    pub fn by_name(name: &[u8]) -> Option<&'static Scheme> {
        SCHEMES.iter().find(|scheme| scheme.name == name)
    }

    pub fn by_header(header: u8) -> Option<&'static Scheme> {
        SCHEMES.iter().find(|scheme| scheme.header == header)
    }
}

pub static SCHEMES: [Scheme; 16] = [
    scheme(b"sgtin-96", 0x30, 96, 6, &[F, P, A, integer(38)], 0),
    scheme(b"sgtin-198", 0x36, 198, 13, &[F, P, A, string(140)], 0),
    scheme(b"sscc-96", 0x31, 96, 6, &[F, P, B], 24),
    scheme(b"sgln-96", 0x32, 96, 6, &[F, P, D, integer(41)], 0),
    scheme(b"sgln-195", 0x39, 195, 13, &[F, P, D, string(140)], 0),
    scheme(b"grai-96", 0x33, 96, 6, &[F, P, C, integer(38)], 0),
    scheme(b"grai-170", 0x37, 170, 11, &[F, P, C, string(112)], 0),
    scheme(b"giai-96", 0x34, 96, 6, &[F, P, E], 0),
    scheme(b"gsrn-96", 0x2D, 96, 6, &[F, P, B], 24),
    scheme(b"gsrnp-96", 0x2E, 96, 6, &[F, P, B], 24),
    scheme(b"gdti-96", 0x2C, 96, 6, &[F, P, D, integer(41)], 0),
    scheme(b"gdti-174", 0x3E, 174, 11, &[F, P, D, string(119)], 0),
    scheme(b"gid-96", 0x35, 96, 6, &[first(28), second(24), integer(36)], 0),
    scheme(b"gdti-113", 0x3A, 113, 8, &[F, P, D, numeric_string(58, 17)], 0),
    scheme(b"sgcn-96", 0x3F, 96, 6, &[F, P, D, numeric_string(41, 12)], 0),
    scheme(b"cpi-96", 0x3C, 96, 6, &[F, P, CPI, integer(31)], 0),
];

const F: Part = Part::Filter;
const P: Part = Part::Prefix;
const A: Part = Part::Reference(Table::A);
const B: Part = Part::Reference(Table::B);
const C: Part = Part::Reference(Table::C);
const D: Part = Part::Reference(Table::D);
const E: Part = Part::RowInteger(IntegerTable::E);
const CPI: Part = Part::RowInteger(IntegerTable::Cpi);

const fn string(bits: usize) -> Part {
    Part::String { bits }
}

const fn numeric_string(bits: usize, most: usize) -> Part {
    Part::NumericString(NumericString { bits, most })
}

const fn integer(bits: usize) -> Part {
    Part::Integer(last(bits))
}

/// gid-96's first two parts are refused by the numbers of a prefix and of a reference.
const fn first(bits: usize) -> Part {
    Part::Integer(any_of(bits, refusal::FIRST, refusal::FIRST))
}

const fn second(bits: usize) -> Part {
    Part::Integer(any_of(bits, refusal::SECOND, refusal::SECOND))
}

const fn last(bits: usize) -> Integer {
    any_of(bits, refusal::LAST_FORM, refusal::LAST_SIZE)
}

/// An integer that has any value of its bits.
const fn any_of(bits: usize, form: u8, size: u8) -> Integer {
    Integer { bits, limit: 1 << bits, form, size }
}

/// A reference that is an integer of at most so many digits.
const fn at_most((bits, digits): (usize, usize)) -> Integer {
    let limit = 10u64.pow(digits as u32);
    Integer { bits, limit, form: refusal::SECOND, size: refusal::SECOND }
}

const fn padded((bits, digits): (usize, usize)) -> Padded {
    Padded { bits, digits }
}

const fn row(
    prefix: (usize, usize),
    [a, b, c, d]: [(usize, usize); 4],
    e: usize,
    cpi: (usize, usize),
) -> Row {
    Row {
        prefix: padded(prefix),
        references: [padded(a), padded(b), padded(c), padded(d)],
        integers: [last(e), at_most(cpi)],
    }
}

const fn scheme(
    name: &'static [u8],
    header: u8,
    bits: usize,
    words: usize,
    parts: &'static [Part],
    zeros: usize,
) -> Scheme {
    Scheme { name, header, bits, words, parts, zeros }
}

#[cfg(test)]
mod tests {
    use super::*;
    use crate::tables::{FILTER_BITS, HEADER_BITS, PARTITION_BITS, WORD_BITS};

    fn width(part: &Part, row: &Row) -> usize {
        match part {
            Part::Filter => FILTER_BITS,
            Part::Prefix => PARTITION_BITS + row.prefix.bits,
            Part::Reference(table) => row.reference(*table).bits,
            Part::RowInteger(table) => row.integer(*table).bits,
            Part::Integer(integer) => integer.bits,
            Part::String { bits } => *bits,
            Part::NumericString(string) => string.bits,
        }
    }

    #[test]
    fn parts_add_up_to_the_bit_total_in_every_row() {
        for scheme in &SCHEMES {
            for row in &ROWS {
                let parts: usize = scheme.parts.iter().map(|part| width(part, row)).sum();
                assert_eq!(HEADER_BITS + parts + scheme.zeros, scheme.bits);
            }
            assert_eq!(scheme.words, scheme.bits.div_ceil(WORD_BITS));
        }
    }

    #[test]
    fn digits_fit_their_bits_and_prefixes_have_no_bit_to_spare() {
        for row in &ROWS {
            for column in row.references.iter().chain([&row.prefix]) {
                assert!(10u128.pow(column.digits as u32) <= 1 << column.bits);
            }
            assert!(10u128.pow(row.prefix.digits as u32) > 1 << (row.prefix.bits - 1));
            for column in &row.integers {
                assert!(column.limit <= 1 << column.bits);
            }
        }
        for part in SCHEMES.iter().flat_map(|scheme| scheme.parts) {
            if let Part::NumericString(string) = part {
                assert!(2 * 10u128.pow(string.most as u32) <= 1 << string.bits);
            }
        }
    }

    #[test]
    fn names_and_headers_are_told_apart() {
        for scheme in &SCHEMES {
            assert!(std::ptr::eq(Scheme::by_name(scheme.name).unwrap(), scheme));
            assert!(std::ptr::eq(Scheme::by_header(scheme.header).unwrap(), scheme));
        }
    }
}
