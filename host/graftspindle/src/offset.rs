//! How far local time is from UTC.

use std::fmt;
use std::str::FromStr;

/// Local time less UTC, in whole minutes. Any number is one: a call that is given one out of range refuses it.
#[derive(Clone, Copy, Debug, Default, PartialEq, Eq, PartialOrd, Ord, Hash)]
pub struct Offset(i64);

/// A text that is neither `+HH:MM` nor `-HH:MM`.
#[derive(Clone, Copy, Debug, PartialEq, Eq)]
pub struct NoOffset;

impl Offset {
    /// Local time is UTC.
    pub const UTC: Offset = Offset(0);

    /// So many minutes ahead of UTC, or behind it where they are negative.
    pub const fn of_minutes(minutes: i64) -> Offset {
        Offset(minutes)
    }

    /// Local time less UTC.
    pub const fn minutes(self) -> i64 {
        self.0
    }
}

impl FromStr for Offset {
    type Err = NoOffset;

    /// `+HH:MM` or `-HH:MM`, as `date +%:z` writes it.
    fn from_str(text: &str) -> Result<Offset, NoOffset> {
        let &[sign @ (b'+' | b'-'), a, b, b':', c, d] = text.as_bytes() else { return Err(NoOffset) };
        let two = |tens: u8, ones: u8| {
            let is_number = tens.is_ascii_digit() && ones.is_ascii_digit();
            is_number.then(|| i64::from(tens - b'0') * 10 + i64::from(ones - b'0')).ok_or(NoOffset)
        };
        let (hours, minutes) = (two(a, b)?, two(c, d)?);
        let all = (minutes < 60).then_some(hours * 60 + minutes).ok_or(NoOffset)?;
        Ok(Offset(if sign == b'-' { -all } else { all }))
    }
}

impl fmt::Display for Offset {
    fn fmt(&self, f: &mut fmt::Formatter) -> fmt::Result {
        let (sign, all) = (if self.0 < 0 { '-' } else { '+' }, self.0.unsigned_abs());
        write!(f, "{sign}{:02}:{:02}", all / 60, all % 60)
    }
}

impl fmt::Display for NoOffset {
    fn fmt(&self, f: &mut fmt::Formatter) -> fmt::Result {
        f.write_str("an offset is +HH:MM or -HH:MM")
    }
}

impl std::error::Error for NoOffset {}
