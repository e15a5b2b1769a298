//! The 16 fields of an account, in the order in which the writer takes them: what each is called in a CSV file, where it
//! stands in a line of the HGV, how a value of a spreadsheet fills it, and what is said where it is refused. Nothing is
//! judged here.

use graftspindle::sizes::ACCOUNT;
use std::ops::Range;

/// How a value fills its column.
#[derive(Clone, Copy, Debug, PartialEq, Eq)]
pub enum Fill {
    /// Text: to the left, without the blanks around it, and blanks behind.
    Left,
    /// As it stands, and blanks behind.
    Stands,
    /// Digits: to the right, with the zeros in front that a spreadsheet takes away. Anything else is text.
    Right,
}

/// What nothing in a CSV file becomes.
#[derive(Clone, Copy, Debug, PartialEq, Eq)]
pub enum Missing {
    Blanks,
    Zeros,
}

pub struct Field {
    pub name: &'static str,
    /// The first and the last position in a line of the HGV.
    positions: (usize, usize),
    fill: Fill,
    missing: Missing,
    /// A value that breaks no rule beside those of the others.
    model: &'static str,
    /// For people to read: nothing decides by these words.
    expected: &'static str,
}

use Fill::{Left, Right, Stands};
use Missing::{Blanks, Zeros};

const fn field(
    name: &'static str,
    positions: (usize, usize),
    (fill, missing): (Fill, Missing),
    model: &'static str,
    expected: &'static str,
) -> Field {
    Field { name, positions, fill, missing, model, expected }
}

/// The PAN.
pub static PAN: &Field = &FIELDS[0];
/// The tariff class.
pub static TARIFF: &Field = &FIELDS[3];
/// The weight code.
pub static WEIGHT: &Field = &FIELDS[13];

pub static FIELDS: [Field; 16] = [
    field(
        "pan",
        (14, 32),
        (Left, Blanks),
        "9799001200000002",
        "up to 19 digits; an issuer row of the sender must begin the PAN and have its length, and the last digit is its \
         check digit (Luhn)",
    ),
    field(
        "plate",
        (33, 42),
        (Left, Blanks),
        "ABC123",
        "1 to 10 of the characters A-Z, a-z, 0-9, Ä, Ö, Ü, ä and ü, with nothing between them",
    ),
    field("nationality", (43, 45), (Left, Blanks), "NO", "the two capitals of the country"),
    field("tariff", (46, 47), (Stands, Blanks), "12", "12, 22, 31, 32, 41, 51, 63 or 71"),
    field("class", (48, 48), (Left, Blanks), "", "a digit or nothing"),
    field("axles", (49, 49), (Left, Blanks), "", "a digit or nothing"),
    field("context_mark", (50, 61), (Stands, Blanks), "30C00B000503", "12 of the digits 0-9 and A-F"),
    field("obe_id", (62, 79), (Stands, Blanks), "30C00B001222070321", "18 of the digits 0-9 and A-F"),
    field("emission", (80, 85), (Left, Blanks), "Euro6", "0, EEV or Euro1 to Euro7"),
    field("fuel", (86, 87), (Right, Blanks), "02", "01 to 06, 09 to 15 or 20 to 22"),
    field("chargeable", (88, 88), (Stands, Blanks), "N", "Y or N"),
    field("engine", (92, 94), (Right, Zeros), "004", "000 to 052 or 255, or nothing where it is missing"),
    field("co2", (95, 96), (Right, Zeros), "", "two digits, or nothing where it is missing"),
    field(
        "weight",
        (97, 100),
        (Right, Zeros),
        "",
        "four digits w for 10w + 1 to 10w + 10 kg, or nothing where it is missing; at most 0349 with tariff 12 or 22, at least \
         0350 with 31 or 32, 0350 to 1199 with 41, at least 1200 with 51",
    ),
    field("valid_to", (101, 114), (Stands, Zeros), "", "a real time YYYYMMDDhhmmss, or nothing where there is no end"),
    field(
        "separator",
        (115, 116),
        (Right, Zeros),
        "",
        "two digits pq that fit the plate of k characters: nothing or 00; p0 with p from 2 to k; or pq with p from 2 and q \
         from p + 2 to k + 1",
    ),
];

/// Why a value is in no column.
#[derive(Clone, Copy, Debug, PartialEq, Eq)]
pub enum Misfit {
    /// It is longer.
    Long,
    /// ISO 8859-1 lacks this character.
    Lacks(char),
}

impl Field {
    fn width(&self) -> usize {
        self.positions.1 - self.positions.0 + 1
    }

    /// Its column in an account.
    pub fn column(&self) -> Range<usize> {
        let before = FIELDS.iter().take_while(|field| field.name != self.name);
        let from = before.map(Field::width).sum();
        from..from + self.width()
    }

    /// What stands at its positions in a line or record.
    pub fn of<'a>(&self, line: &'a [u8]) -> &'a [u8] {
        &line[self.positions.0 - 1..self.positions.1]
    }

    /// Blanks alone are nothing.
    fn adjusted<'a>(&self, value: &'a str) -> &'a str {
        match value.trim_matches(' ') {
            "" => "",
            text if self.fill != Stands => text,
            _ => value,
        }
    }

    /// The column with the value in it, ISO 8859-1.
    pub fn filled(&self, value: &str) -> Result<Vec<u8>, Misfit> {
        let byte = |c: char| u8::try_from(u32::from(c)).map_err(|_| Misfit::Lacks(c));
        let bytes: Vec<u8> = self.adjusted(value).chars().map(byte).collect::<Result<_, _>>()?;
        let rest = self.width().checked_sub(bytes.len()).ok_or(Misfit::Long)?;
        let zeros = match bytes.is_empty() {
            true => self.missing == Zeros,
            false => self.fill == Right && bytes.iter().all(u8::is_ascii_digit),
        };
        Ok(match zeros {
            true => [vec![b'0'; rest], bytes].concat(),
            false => [bytes, vec![b' '; rest]].concat(),
        })
    }

    /// What would be right, and where it stands in the HGV.
    pub fn expected(&self) -> String {
        let at = match self.positions {
            (from, to) if from == to => format!("position {from}"),
            (from, to) => format!("positions {from}-{to}"),
        };
        format!("{at}: {}", self.expected)
    }
}

/// An account that breaks no rule under an issuer row of `97990012`, PANs of 16 digits.
pub fn model() -> Vec<u8> {
    let columns: Result<Vec<Vec<u8>>, Misfit> = FIELDS.iter().map(|field| field.filled(field.model)).collect();
    let model = columns.expect("each model value has its column").concat();
    assert_eq!(model.len(), ACCOUNT, "the columns are those of an account");
    model
}
