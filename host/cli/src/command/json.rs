//! JSON, written only.

use std::fmt;

/// A value.
#[derive(Clone, Debug, PartialEq, Eq)]
pub enum Json {
    /// `null`.
    Nothing,
    /// `true` or `false`.
    Flag(bool),
    /// A number.
    Number(u64),
    /// A text, in quotes.
    Text(String),
    /// Values, in their order.
    List(Vec<Json>),
    /// Named values, in their order.
    Object(Fields),
}

/// The fields of an object, in their order.
pub type Fields = Vec<(&'static str, Json)>;

impl From<u64> for Json {
    fn from(number: u64) -> Json {
        Json::Number(number)
    }
}

impl From<usize> for Json {
    fn from(number: usize) -> Json {
        Json::Number(number as u64)
    }
}

impl From<bool> for Json {
    fn from(flag: bool) -> Json {
        Json::Flag(flag)
    }
}

impl From<String> for Json {
    fn from(text: String) -> Json {
        Json::Text(text)
    }
}

impl From<&str> for Json {
    fn from(text: &str) -> Json {
        Json::Text(text.to_string())
    }
}

fn text(f: &mut fmt::Formatter, text: &str) -> fmt::Result {
    f.write_str("\"")?;
    for c in text.chars() {
        match c {
            '"' | '\\' => write!(f, "\\{c}")?,
            c if c.is_control() => write!(f, "\\u{:04x}", u32::from(c))?,
            c => write!(f, "{c}")?,
        }
    }
    f.write_str("\"")
}

fn joined<T>(
    f: &mut fmt::Formatter,
    parts: &[T],
    part: impl Fn(&mut fmt::Formatter, &T) -> fmt::Result,
) -> fmt::Result {
    for (i, one) in parts.iter().enumerate() {
        if i > 0 {
            f.write_str(",")?;
        }
        part(f, one)?;
    }
    Ok(())
}

impl fmt::Display for Json {
    fn fmt(&self, f: &mut fmt::Formatter) -> fmt::Result {
        match self {
            Json::Nothing => f.write_str("null"),
            Json::Flag(flag) => write!(f, "{flag}"),
            Json::Number(number) => write!(f, "{number}"),
            Json::Text(words) => text(f, words),
            Json::List(parts) => {
                f.write_str("[")?;
                joined(f, parts, |f, part| write!(f, "{part}"))?;
                f.write_str("]")
            }
            Json::Object(fields) => {
                f.write_str("{")?;
                joined(f, fields, |f, (name, value)| write!(f, "\"{name}\":{value}"))?;
                f.write_str("}")
            }
        }
    }
}
