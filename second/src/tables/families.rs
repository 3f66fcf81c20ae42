//! The families of identities: the grammar of each from section 6.3 of the standard, and its schemes.

use super::schemes::{Scheme, SCHEMES};
use Component::*;

/// What a component of an identity may be; names as in section 5 of the standard.
#[derive(Clone, Copy)]
pub enum Component {
    Padded,
    PaddedOrEmpty,
    /// `Padded`, and the section says how many digits at most.
    PaddedUpTo(usize),
    Numeric,
    Gs3a3,
    CpRef,
}

pub struct Family {
    pub name: &'static [u8],
    /// In order; between them stand dots.
    pub components: &'static [Component],
    /// How many digits the first two components have together, where the section says so.
    pub together: Option<usize>,
    /// The scheme of 96 bits; and the long one, for what that doesn't hold. gdti-113 is never chosen.
    pub short: &'static Scheme,
    pub long: Option<&'static Scheme>,
}

/// The most components that an identity has.
pub const MOST_COMPONENTS: usize = 3;

impl Family {
    pub fn by_name(name: &[u8]) -> Option<&'static Family> {
        FAMILIES.iter().find(|family| family.name == name)
    }
}

#[rustfmt::skip]
pub static FAMILIES: [Family; 11] = [
    family(b"sgtin", &[Padded, Padded, Gs3a3], Some(13), b"sgtin-96", Some(b"sgtin-198")),
    family(b"sscc", &[Padded, Padded], Some(17), b"sscc-96", None),
    family(b"sgln", &[Padded, PaddedOrEmpty, Gs3a3], Some(12), b"sgln-96", Some(b"sgln-195")),
    family(b"grai", &[Padded, PaddedOrEmpty, Gs3a3], Some(12), b"grai-96", Some(b"grai-170")),
    family(b"giai", &[Padded, Gs3a3], None, b"giai-96", None),
    family(b"gsrn", &[Padded, Padded], Some(17), b"gsrn-96", None),
    family(b"gsrnp", &[Padded, Padded], Some(17), b"gsrnp-96", None),
    family(b"gdti", &[Padded, PaddedOrEmpty, Gs3a3], Some(12), b"gdti-96", Some(b"gdti-174")),
    family(b"gid", &[Numeric, Numeric, Numeric], None, b"gid-96", None),
    family(b"sgcn", &[Padded, PaddedOrEmpty, PaddedUpTo(12)], Some(12), b"sgcn-96", None),
    family(b"cpi", &[Padded, CpRef, Numeric], None, b"cpi-96", None),
];

const fn family(
    name: &'static [u8],
    components: &'static [Component],
    together: Option<usize>,
    short: &'static [u8],
    long: Option<&'static [u8]>,
) -> Family {
    let long = match long {
        Some(name) => Some(named(name)),
        None => None,
    };
    Family { name, components, together, short: named(short), long }
}

/// The scheme of this name, found when the table is compiled.
const fn named(name: &[u8]) -> &'static Scheme {
    let mut i = 0;
    while !same(SCHEMES[i].name, name) {
        i += 1;
    }
    &SCHEMES[i]
}

const fn same(one: &[u8], other: &[u8]) -> bool {
    let mut i = 0;
    while i < one.len() && i < other.len() && one[i] == other[i] {
        i += 1;
    }
    i == one.len() && i == other.len()
}
