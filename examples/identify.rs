//! The text of a tag, or an identity and the filter that its tag is to have:
//! `identify urn:epc:tag:gid-96:1.2.3`, `identify urn:epc:id:sscc:0614141.1234567890 3`.
//! Prints the number of the first broken rule, 0 for none. With 0: the identity of the tag, or the text of the tag. With another: for a tag
//! the place, the text, and a mark under the character at the place; for an identity, whose refusals have no place, nothing more.
mod shown;
mod tagcodec;

use shown::{arguments, from_decimal, printable, refused};

fn show_tag(text: &[u8]) {
    let mut identity = [0; tagcodec::TEXT_ROOM];
    match tagcodec::tag_to_identity(text, &mut identity) {
        Ok(written) => println!("0 {}", printable(&identity[..written.length])),
        Err(refusal) => println!("{}", refused(refusal, text)),
    }
}

fn show_identity(text: &[u8], filter: u32) {
    let mut tag = [0; tagcodec::TEXT_ROOM];
    match tagcodec::identity_to_tag(text, filter, &mut tag) {
        Ok(written) => println!("0 {}", printable(&tag[..written.length])),
        Err(refusal) => println!("{}", refusal.number),
    }
}

/// Shows what the arguments ask for; None if they are neither the text of a tag nor an identity and a filter.
fn show(given: &[Vec<u8>]) -> Option<()> {
    match given {
        [tag] if tag.starts_with(b"urn:") => show_tag(tag),
        [identity, filter] if identity.starts_with(b"urn:") => show_identity(identity, from_decimal(filter)?),
        _ => return None,
    }
    Some(())
}

fn main() {
    let given = arguments();
    if show(&given).is_none() {
        let given = printable(&given.join(&b' '));
        eprintln!("identify: the text of a tag, or an identity and a filter below 2^32; either begins with urn: {given}");
        std::process::exit(2);
    }
}
