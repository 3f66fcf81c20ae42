//! A second codec for the tags of docs/01-scope.md and of requests C-11, C-12, C-13, C-15 and C-16 in
//! docs/02-change-requests.md, written from those papers alone and, for the grammar of identities, from
//! section 6.3 of the standard, to compare with.
//!
//! A scheme is a list of parts, and each part turns its characters into bits and its bits into
//! characters; the lists and all numbers stand in `tables`. Control fields, which may stand before a
//! scheme's name, are bits of the word before its code. A bank may have more words than its scheme needs,
//! all zero. An identity is judged by its family's grammar, then by the schemes of the family. No call
//! allocates, and none touches its output before it knows its answer.

mod answer;
mod bank;
mod bits;
mod characters;
mod control;
mod decode;
mod encode;
mod identity;
mod line;
mod numerals;
mod pure_identity;
mod replies;
pub mod tables;
mod tag_text;
mod tagline;

pub use answer::{Answer, Refusal, Written};
pub use bank::{raw_line, screen};
pub use decode::bank_to_text;
pub use encode::text_to_bank;
pub use identity::identity_reply;
pub use pure_identity::{identity_to_tag, tag_to_identity};
pub use tagline::reply;
