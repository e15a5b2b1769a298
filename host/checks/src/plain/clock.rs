//! The two clocks: UTC, and the local time that an HGC shows. One is made of the other by moving the minute of the day, and by
//! the next day or the one before where that leaves its day.

use super::words::{days_of, is_real_time, number_of, positions};

/// "An offset, local minus UTC, in minutes from -720 to 840."
const LEAST: i64 = -720;
const MOST: i64 = 840;

const MINUTES_OF_DAY: i64 = 24 * 60;

/// Year, month and day.
type Date = (u64, u64, u64);

/// None where "the year leaves 0001-9999".
fn day_after((year, month, day): Date) -> Option<Date> {
    match (month, day) {
        _ if day < days_of(year, month) => Some((year, month, day + 1)),
        (12, _) => (year < 9999).then_some((year + 1, 1, 1)),
        _ => Some((year, month + 1, 1)),
    }
}

fn day_before((year, month, day): Date) -> Option<Date> {
    match (month, day) {
        (1, 1) => (year > 1).then_some((year - 1, 12, 31)),
        (_, 1) => Some((year, month - 1, days_of(year, month - 1))),
        _ => Some((year, month, day - 1)),
    }
}

/// A real time so many minutes later, which are less than a day's either way.
fn moved(time: &[u8], minutes: i64) -> Option<Vec<u8>> {
    let part = |from, to| number_of(positions(time, from, to)).unwrap_or(0);
    let date = (part(1, 4), part(5, 6), part(7, 8));
    let minute = (part(9, 10) * 60 + part(11, 12)) as i64 + minutes;
    let (year, month, day) = match minute {
        ..0 => day_before(date)?,
        MINUTES_OF_DAY.. => day_after(date)?,
        _ => date,
    };
    let minute = minute.rem_euclid(MINUTES_OF_DAY);
    let front = format!("{year:04}{month:02}{day:02}{:02}{:02}", minute / 60, minute % 60);
    Some([front.as_bytes(), positions(time, 13, 14)].concat())
}

/// Nothing is moved that is no real time, or by an offset out of range.
fn moves(time: &[u8], offset: i64) -> bool {
    is_real_time(time) && (LEAST..=MOST).contains(&offset)
}

/// "The HGC's reception shows local time." None is 22: "reception is not a real time of 14 bytes", and "also when the offset is
/// out of range or the local year leaves 0001-9999".
pub fn local(utc: &[u8], offset: i64) -> Option<Vec<u8>> {
    if !moves(utc, offset) {
        return None;
    }
    moved(utc, offset)
}

/// "Ends and stamps are reckoned in UTC." None is the update's 52: "reception is not real", the offset is out of range, or the
/// UTC year leaves 0001-9999.
pub fn utc(local: &[u8], offset: i64) -> Option<Vec<u8>> {
    if !moves(local, offset) {
        return None;
    }
    moved(local, -offset)
}
