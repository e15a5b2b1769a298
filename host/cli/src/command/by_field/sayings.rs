//! What the values say that no table lists: numbers, the plate's separators, and what is put together of parts.

/// The digits' number; none where something else stands among them.
pub fn number(value: &str) -> Option<u64> {
    let digits = !value.is_empty() && value.bytes().all(|byte| byte.is_ascii_digit());
    value.parse().ok().filter(|_| digits)
}

/// Zeros alone.
pub fn zeros(value: &str) -> bool {
    number(value) == Some(0)
}

fn blank(value: &str) -> bool {
    value.bytes().all(|byte| byte == b' ')
}

/// `4,200`.
fn thousands(number: u64) -> String {
    match (number / 1000, number % 1000) {
        (0, rest) => rest.to_string(),
        (front, rest) => format!("{},{rest:03}", thousands(front)),
    }
}

/// `1 digit`, `16 digits`.
fn counted(count: u64, word: &str) -> String {
    format!("{} {word}{}", thousands(count), if count == 1 { "" } else { "s" })
}

/// These words.
pub fn said(words: &str) -> Option<String> {
    Some(words.to_string())
}

/// Where the condition holds.
fn said_if(holds: bool, words: &str) -> Option<String> {
    holds.then(|| words.to_string())
}

pub fn line_end(value: &str) -> Option<String> {
    said_if(value == "\n", "LF")
}

pub fn filler(value: &str) -> Option<String> {
    said_if(zeros(value), "reserved for future use")
}

pub fn sender(value: &str) -> Option<String> {
    number(value).and(said("the company that made this file"))
}

pub fn actor(value: &str) -> Option<String> {
    number(value).and(said("the company that issued the OBE"))
}

pub fn shadow(value: &str) -> Option<String> {
    said_if(blank(value), "not in use")
}

pub fn rest_of_product_code(value: &str) -> Option<String> {
    said_if(blank(value), "blank")
}

pub fn activation(value: &str) -> Option<String> {
    said_if(zeros(value), "at once")
}

pub fn count(value: &str) -> Option<String> {
    number(value).map(|lines| counted(lines, "line"))
}

pub fn pan(value: &str) -> Option<String> {
    let digits = value.trim_end_matches(' ');
    let only_digits = digits.bytes().all(|byte| byte.is_ascii_digit());
    let check = digits.chars().last().filter(|_| only_digits)?;
    Some(format!("{}, check digit {check}", counted(digits.len() as u64, "digit")))
}

pub fn plate(value: &str) -> Option<String> {
    let characters = value.trim_end_matches(' ');
    let count = counted(characters.chars().count() as u64, "character");
    match characters.chars().any(char::is_lowercase) {
        true => Some(format!("{count}; small letters stand for non-Latin ones")),
        false => said_if(!characters.is_empty(), &count),
    }
}

/// The plate with a hyphen at this position of it, counted from 1; none where that is not between two characters.
fn separated(plate: &str, position: u64) -> Option<String> {
    let mut written: Vec<char> = plate.chars().collect();
    let place = usize::try_from(position).ok()?.checked_sub(1)?;
    let around = [written.get(place.checked_sub(1)?)?, written.get(place)?];
    let between = around.iter().all(|c| **c != '-');
    between.then(|| written.insert(place, '-'))?;
    Some(written.into_iter().collect())
}

/// The plate as it is written: the digits are the separators' positions in it, the second behind the first.
pub fn separator(value: &str, plate: &str) -> Option<String> {
    let digits = number(value)?;
    match (digits / 10, digits % 10) {
        (0, 0) => said("no separator"),
        (first, 0) => separated(plate, first),
        (first, second) if first < second => separated(&separated(plate, first)?, second),
        _ => None,
    }
}

pub fn class(value: &str) -> Option<String> {
    match number(value) {
        Some(class) if class > 0 => Some(format!("UNECE vehicle class as in the OBE, {class}")),
        none => said_if(none.is_some() || blank(value), "missing"),
    }
}

pub fn axles(value: &str) -> Option<String> {
    match number(value) {
        Some(axles) if axles > 0 => Some(format!("{} of the tractor unit", counted(axles, "axle"))),
        none => said_if(none.is_some() || blank(value), "missing"),
    }
}

/// The value cut after these many characters each, with a name before every part.
fn parts(value: &str, parts: &[(&str, usize)]) -> Option<String> {
    let mut rest = Some(value).filter(|value| value.bytes().all(|byte| byte.is_ascii_alphanumeric()))?;
    let mut named = Vec::new();
    for (name, length) in parts {
        let (part, behind) = rest.split_at_checked(*length)?;
        named.push(format!("{name} {part}"));
        rest = behind;
    }
    Some(named.join(", "))
}

pub fn context_mark(value: &str) -> Option<String> {
    parts(value, &[("ContractProvider", 6), ("TypeOfContract", 4), ("ContextVersion", 2)])
}

pub fn obe_id(value: &str) -> Option<String> {
    parts(value, &[("ContractProvider", 6), ("ManufacturerId", 4), ("EquipmentOBUId", 8)])
}

pub fn co2(value: &str) -> Option<String> {
    match number(value)? {
        0 => said("missing"),
        value => Some(format!("carbon dioxide pollution value {value}")),
    }
}

/// The first and the last kilogram that a weight code covers; none where it is missing or no number. No other place knows
/// this.
pub fn kilograms(value: &str) -> Option<(u64, u64)> {
    let code = number(value).filter(|&code| code > 0)?;
    Some((10 * code + 1, 10 * code + 10))
}

pub fn weight(value: &str) -> Option<String> {
    match kilograms(value) {
        Some((first, last)) => Some(format!("{} to {} kg", thousands(first), thousands(last))),
        None => said_if(zeros(value), "missing"),
    }
}
