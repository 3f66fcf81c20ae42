//! Pure identities, request C-16: a tag's text without control fields, filter and choice of scheme, and
//! back.

use crate::answer::{Answer, Refusal, Written};
use crate::characters;
use crate::line::Line;
use crate::numerals;
use crate::tables::*;
use crate::tag_text::{split, TagText};

/// Writes the identity of a tag's text: its length and no words, or the text's own refusal and nothing
/// written.
pub fn tag_to_identity(text: &[u8], out: &mut [u8]) -> Answer {
    if out.len() < TEXT_ROOM {
        return Err(Refusal::without_place(refusal::OUTPUT));
    }
    let tag = TagText::new(text)?;
    tag.values(|_, _| ())?;
    // a filter is one digit and a dot
    let body = if tag.scheme.has_filter() { &tag.parts[2..] } else { tag.parts };
    let mut line = Line::new(out);
    line.push(IDENTITY_START);
    line.push(tag.scheme.family());
    line.push(b":");
    line.push(body);
    Ok(Written { length: line.length(), words: 0 })
}

/// Writes the tag's text of an identity and a filter, in the family's short scheme if that holds it, else
/// in its long one: its length and no words, or the refusal and nothing written.
pub fn identity_to_tag(text: &[u8], filter: u32, out: &mut [u8]) -> Answer {
    if out.len() < TEXT_ROOM {
        return Err(Refusal::without_place(refusal::OUTPUT));
    }
    let no_identity = Refusal::without_place(refusal::IDENTITY);
    let identity = Identity::read(text).ok_or(no_identity)?;
    if filter > identity.most_filter() {
        return Err(Refusal::without_place(refusal::GIVEN_FILTER));
    }
    let scheme = identity.scheme().ok_or(Refusal::without_place(refusal::NO_SCHEME))?;
    let mut line = Line::new(out);
    line.push(TAG_START);
    line.push(scheme.name);
    line.push(b":");
    if scheme.has_filter() {
        line.integer(filter.into());
        line.push(b".");
    }
    line.push(identity.body);
    Ok(Written { length: line.length(), words: 0 })
}

/// An identity whose components have the form of its family's; those that it lacks are empty.
struct Identity<'a> {
    family: &'static Family,
    body: &'a [u8],
    components: [&'a [u8]; MOST_COMPONENTS],
}

impl<'a> Identity<'a> {
    fn read(text: &'a [u8]) -> Option<Self> {
        let named = text.strip_prefix(IDENTITY_START)?;
        let (name, body) = split(named, b':')?;
        let family = Family::by_name(name)?;
        let mut components = [&b""[..]; MOST_COMPONENTS];
        let (last, before) = family.components.split_last()?;
        let mut rest = body;
        for (component, characters) in before.iter().zip(&mut components) {
            (*characters, rest) = split(rest, b'.')?;
            formed(component, characters).then_some(())?;
        }
        formed(last, rest).then_some(())?;
        components[before.len()] = rest;
        let digits = components[0].len() + components[1].len();
        let counted = family.together.is_none_or(|together| digits == together);
        counted.then_some(Identity { family, body, components })
    }

    /// A scheme without a filter takes only 0 for one.
    fn most_filter(&self) -> u32 {
        u32::from(self.family.short.has_filter()) * MOST_FILTER
    }

    fn scheme(&self) -> Option<&'static Scheme> {
        let schemes = [Some(self.family.short), self.family.long];
        schemes.into_iter().flatten().find(|scheme| self.fits(scheme))
    }

    /// Whether each part of a scheme behind its filter holds its component.
    fn fits(&self, scheme: &Scheme) -> bool {
        let row = Row::partition(self.components[0].len()).map(|partition| &ROWS[partition]);
        let mut parts = scheme.behind_filter().iter().zip(self.components);
        parts.all(|(part, characters)| holds(part, row, characters))
    }
}

/// Whether the characters are such a component.
fn formed(component: &Component, characters: &[u8]) -> bool {
    let digits = || numerals::all_digits(characters);
    match *component {
        Component::Padded => !characters.is_empty() && digits(),
        Component::PaddedOrEmpty => digits(),
        Component::PaddedUpTo(most) => (1..=most).contains(&characters.len()) && digits(),
        Component::Numeric => numerals::is_integer(characters),
        Component::Gs3a3 => characters::is_string(characters),
        Component::CpRef => characters::is_cp_ref(characters),
    }
}

/// Whether a part holds a component of its family's form, in the row that the prefix picks, if there is
/// one.
fn holds(part: &Part, row: Option<&Row>, characters: &[u8]) -> bool {
    let integer = |kind| numerals::integer(characters, kind).is_ok();
    match *part {
        Part::Filter => false,
        Part::Prefix => row.is_some(),
        Part::Reference(table) => {
            row.is_some_and(|row| characters.len() == row.reference(table).digits)
        }
        Part::RowInteger(table) => row.is_some_and(|row| integer(row.integer(table))),
        Part::Integer(kind) => integer(kind),
        Part::String { bits } => characters::count(characters) <= bits / CHARACTER_BITS,
        Part::NumericString(kind) => characters.len() <= kind.most,
    }
}
