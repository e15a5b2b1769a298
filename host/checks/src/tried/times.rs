//! Dates and times: every day 00 to 32 of every month 00 to 13 of every year, and every time of a day.

use super::{digits, Trial};
use crate::lists::*;

fn is_leap(year: &str) -> bool {
    FOURS.contains(&&year[2..]) || (&year[2..] == "00" && FOURS.contains(&&year[..2]))
}

fn days(year: &str, month: usize) -> u32 {
    let leap_day = month == 2 && is_leap(year);
    MONTHS[month - 1] + u32::from(leap_day)
}

/// Every day and month of a year, and whether there is such a date. There is no year 0000.
pub(super) fn dates_of(year: &str) -> Vec<(String, bool)> {
    let all = (0..=13).flat_map(|month| (0..=32).map(move |day| (month, day)));
    let real = |month, day| year != "0000" && (1..=12).contains(&month) && (1..=days(year, month)).contains(&day);
    all.map(|(month, day)| (format!("{year}{month:02}{day:02}"), real(month, day))).collect()
}

/// The first date of all years that is taken for another, asked as a time of its own.
pub fn all_dates(is_real: impl Fn(&[u8]) -> bool) -> Option<String> {
    let mut all = digits(4).flat_map(|year| dates_of(&year));
    all.find(|(date, right)| is_real(format!("{date}120000").as_bytes()) != *right).map(|(date, _)| date)
}

/// How many dates of all years there are.
pub fn real_dates() -> usize {
    digits(4).flat_map(|year| dates_of(&year)).filter(|(_, right)| *right).count()
}

pub(super) fn is_time_of_day(time: &str) -> bool {
    let part = |at: usize| time[at..at + 2].parse::<u32>().expect("two digits");
    part(0) < HOURS && part(2) < MINUTES && part(4) < SECONDS
}

/// The first of all times of a day, 000000 to 999999, that is taken for another.
pub fn all_times(is_real: impl Fn(&[u8]) -> bool) -> Option<String> {
    digits(6).find(|time| is_real(format!("20250310{time}").as_bytes()) != is_time_of_day(time))
}

/// A value of Valid to.
fn valid_to(time: String, right: bool) -> (super::Puts, bool) {
    (vec![(101, time.into_bytes())], right)
}

/// The dates of 400 years, after which the calendar repeats itself, as Valid to.
pub fn dates() -> Vec<Trial> {
    let years = (1700..2100).map(|year| format!("{year:04}"));
    let values = years.flat_map(|year| dates_of(&year)).map(|(date, right)| valid_to(format!("{date}000000"), right));
    vec![Trial::of("Valid to, dates".to_string(), 12, values)]
}

/// Hours, minutes and seconds 00 to 99, each for itself.
fn parts() -> Trial {
    let texts =
        digits(2).flat_map(|n| [format!("{n}0000"), format!("00{n}00"), format!("0000{n}"), format!("2359{n}")]);
    let value = |time: String| valid_to(format!("20250310{time}"), is_time_of_day(&time));
    Trial::of("Valid to, times".to_string(), 12, texts.map(value))
}

/// Any byte in each place of a time that stays a real one whatever digit stands in that place.
fn bytes() -> Vec<Trial> {
    let places = [(1, DIGITS), (2, DIGITS), (3, DIGITS), (4, DIGITS), (10, DIGITS), (12, DIGITS), (14, DIGITS)];
    let of_place = |(place, allowed): (usize, &[u8])| {
        let value = |b: u8| {
            let mut time = b"19940715112233".to_vec();
            time[place - 1] = b;
            (vec![(101, time)], allowed.contains(&b))
        };
        Trial::of(format!("Valid to, place {place}"), 12, (0..=255).map(value))
    };
    places.into_iter().map(of_place).collect()
}

/// 14 zeros are no time, and right.
fn zeros() -> Trial {
    Trial::of(
        "Valid to, zeros".to_string(),
        12,
        [valid_to("0".repeat(14), true), valid_to("0".repeat(13) + "1", false)],
    )
}

pub fn trials() -> Vec<Trial> {
    bytes().into_iter().chain([zeros(), parts()]).collect()
}
