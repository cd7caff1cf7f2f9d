//! The crate's answers to lines of `config_value`: a kind, a space, and a text.

use crate::Bytes;
use gix_config_value::color::{Attribute, Name};
use gix_config_value::integer::Suffix;
use gix_config_value::{Boolean, Color, Integer};
use std::fmt::{self, Display, Formatter};

/// The answer to a line.
pub enum Answer {
    /// The text has this value, as the crate's `Display` writes it.
    Accepted(Box<dyn Display>),
    /// The text has no value.
    Refused,
    /// No kind has the name.
    UnknownKind,
}

impl Display for Answer {
    fn fmt(&self, formatter: &mut Formatter<'_>) -> fmt::Result {
        match self {
            Answer::Accepted(value) => write!(formatter, "ok {value}"),
            Answer::Refused => formatter.write_str("refused"),
            Answer::UnknownKind => formatter.write_str("unknown kind"),
        }
    }
}

impl<V: Display + 'static> From<Option<V>> for Answer {
    fn from(value: Option<V>) -> Self {
        value.map_or(Answer::Refused, |value| Answer::Accepted(Box::new(value)))
    }
}

/// Returns the answer to a line, which is given without its LF.
pub fn answer(line: &[u8]) -> Answer {
    let end = line.iter().position(|byte| *byte == b' ');
    let (kind, text) = match end {
        Some(end) => (&line[..end], &line[end + 1..]),
        None => (line, &line[line.len()..]),
    };
    let text: &Bytes = text.into();
    match kind {
        b"suffix" => Suffix::try_from(text).ok().into(),
        b"integer" => Integer::try_from(text).ok().into(),
        b"amount" => amount(text).into(),
        b"boolean" => Boolean::try_from(text).ok().into(),
        b"name" => Name::try_from(text).ok().into(),
        b"attribute" => Attribute::try_from(text).ok().into(),
        b"color" => Color::try_from(text).ok().into(),
        _ => Answer::UnknownKind,
    }
}

/// Returns the number that an integer text means. The crate has no type for it.
fn amount(text: &Bytes) -> Option<i64> {
    Integer::try_from(text).ok()?.to_decimal()
}
