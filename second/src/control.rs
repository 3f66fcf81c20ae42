//! The control fields that may stand before a scheme's name: `[umi=1]`, then `[att=xNN]`, each only if it
//! is not zero, and a colon behind the last.

use crate::line::Line;
use crate::numerals::hex_value;
use crate::tables::*;

/// The user memory bit and the attribute bits of a tag.
#[derive(Clone, Copy, Debug, Default, PartialEq, Eq)]
pub struct ControlFields {
    pub umi: bool,
    pub att: u8,
}

impl ControlFields {
    /// The fields of a text that begins where they may stand, and the text from the scheme's name on. If
    /// they are wrong: the text from the first wrong field on, or from where the colon is missing.
    pub fn read(text: &[u8]) -> Result<(Self, &[u8]), &[u8]> {
        let mut fields = ControlFields::default();
        if !text.starts_with(FIELD_START) {
            return Ok((fields, text));
        }
        let mut rest = text;
        if let Some(behind) = rest.strip_prefix(UMI_FIELD) {
            (fields.umi, rest) = (true, behind);
        }
        if let Some((att, behind)) = attribute(rest) {
            (fields.att, rest) = (att, behind);
        }
        let named = rest.strip_prefix(FIELDS_END).ok_or(rest)?;
        Ok((fields, named))
    }

    /// Writes the fields that are not zero, and the colon behind them; nothing if both are.
    pub fn write(self, line: &mut Line) {
        if self.umi {
            line.push(UMI_FIELD);
        }
        if self.att != 0 {
            line.push(ATT_START);
            line.hex(&[self.att]);
            line.push(ATT_END);
        }
        if self != ControlFields::default() {
            line.push(FIELDS_END);
        }
    }

    /// The fields of a control word.
    pub fn of(control: u16) -> Self {
        ControlFields { umi: control & control::UMI != 0, att: (control & control::ATT) as u8 }
    }

    /// Their bits of the control word.
    pub fn bits(self) -> u16 {
        let umi = if self.umi { control::UMI } else { 0 };
        umi | u16::from(self.att)
    }
}

/// The value of the attribute field that a text begins with, which is not zero, and the text behind it.
fn attribute(text: &[u8]) -> Option<(u8, &[u8])> {
    let &[high, low, ref behind @ ..] = text.strip_prefix(ATT_START)? else { return None };
    let att = hex_value(high)? << 4 | hex_value(low)?;
    let behind = behind.strip_prefix(ATT_END)?;
    (att != 0).then_some((att, behind))
}

#[cfg(test)]
mod tests {
    use super::*;

    fn written(fields: ControlFields) -> Vec<u8> {
        let mut room = [0; 20];
        let mut line = Line::new(&mut room);
        fields.write(&mut line);
        let length = line.length();
        room[..length].to_vec()
    }

    #[test]
    fn both_either_and_none_are_written() {
        let written = |umi, att| String::from_utf8(written(ControlFields { umi, att })).unwrap();
        assert_eq!(written(false, 0), "");
        assert_eq!(written(true, 0), "[umi=1]:");
        assert_eq!(written(false, 0x0A), "[att=x0A]:");
        assert_eq!(written(true, 0xFF), "[umi=1][att=xFF]:");
    }

    #[test]
    fn what_is_written_is_read_and_has_its_bits() {
        for control in 0..=u16::MAX {
            let fields = ControlFields::of(control);
            assert_eq!(fields.bits(), control & 0x04FF);
            if control == fields.bits() {
                let text = [&written(fields)[..], b"gid-96:"].concat();
                assert_eq!(ControlFields::read(&text), Ok((fields, &b"gid-96:"[..])));
            }
        }
    }

    #[test]
    fn without_a_bracket_there_are_no_fields() {
        for text in [&b""[..], b":", b"]", b"umi=1:", b"gid-96:[umi=1]", b"\0[umi=1]:"] {
            assert_eq!(ControlFields::read(text), Ok((ControlFields::default(), text)));
        }
    }

    #[test]
    fn the_first_wrong_field_or_the_missing_colon_is_given_back() {
        for (before, wrong) in [
            ("", "["),
            ("", "[umi=0]:"),
            ("", "[att=x00]:"),
            ("", "[att=xa1]:"),
            ("[umi=1]", ""),
            ("[umi=1]", "gid-96:"),
            ("[umi=1]", "[umi=1]:"),
            ("[att=x01]", "[umi=1]:"),
            ("[umi=1][att=x01]", "[xpc=x0004]:"),
            ("[umi=1][att=x01]", "]:"),
        ] {
            let text = [before, wrong].concat();
            assert_eq!(ControlFields::read(text.as_bytes()), Err(wrong.as_bytes()), "{text}");
        }
    }
}
