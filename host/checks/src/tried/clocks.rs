//! The two clocks: what an import shows in its HGC, and what it and an update keep in end and stamp. Every day of 400 years is
//! left at its end and at its beginning, every offset is tried at noon, every minute of a day with some offsets, and both ends
//! of the calendar on both sides.

use super::times::dates_of;
use crate::sample;
use graftspindle::raw::{Counted, Imported};

type Import = fn(u64, &[u8], i64, &mut [u8], &[u8], &[u8], &mut [u8]) -> Imported;
type Update = fn(u64, i64, &mut [u8], &[u8], &[u8]) -> Counted;

const SLOT: usize = 168;
const UNWRITTEN: u8 = 238;

/// One moment by both clocks, and local less UTC.
struct Moment {
    utc: String,
    offset: i64,
    local: String,
}

/// A file of one line that has ended long ago, so that its end is the reception, and its issuer row.
struct Sent {
    hgv: Vec<u8>,
    rows: Vec<u8>,
}

impl Sent {
    fn new() -> Sent {
        Sent { hgv: sample::hgv_of(&[sample::line_until(0, "00010101000000")]), rows: sample::row() }
    }

    /// Its HGC.
    fn hgc(&self, local: &str) -> Vec<u8> {
        let front = ["0000002", sample::SENDER, "HGV", sample::SENDER, sample::OF_DAY, local].concat();
        format!("{front}{:015}{:015}120001{:025}00\n2{:062}\n", 1, 0, 0, 0).into_bytes()
    }

    /// The register that it leaves.
    fn register(&self, utc: &str) -> Vec<u8> {
        let mut slot = sample::slot(sample::line_until(0, utc));
        slot[147..161].copy_from_slice(utc.as_bytes());
        slot
    }

    /// The number, and both blocks after it.
    fn imported(&self, import: Import, utc: &str, offset: i64) -> (u64, Vec<u8>, Vec<u8>) {
        let (mut register, mut hgc) = (vec![0; SLOT], vec![UNWRITTEN; 174]);
        let done = import(1, utc.as_bytes(), offset, &mut register, &self.rows, &self.hgv, &mut hgc);
        (done.number, register, hgc)
    }

    fn updated(&self, update: Update, local: &str, offset: i64) -> (u64, Vec<u8>) {
        let mut copy = vec![0; SLOT];
        let done = update(1, offset, &mut copy, &self.hgv, &self.hgc(local));
        (done.number, copy)
    }
}

/// What is tried.
struct Tried {
    sent: Sent,
    import: Import,
    update: Update,
}

impl Tried {
    /// What is told where a moment is answered otherwise, here or there.
    fn other(&self, moment: &Moment) -> Option<String> {
        let (Moment { utc, offset, local }, sent) = (moment, &self.sent);
        let register = sent.register(utc);
        let imported = sent.imported(self.import, utc, *offset);
        if imported != (0, register.clone(), sent.hgc(local)) {
            return Some(format!("clocks: import at {utc}, offset {offset}: {}, not {local}", imported.0));
        }
        let updated = sent.updated(self.update, local, *offset);
        (updated != (0, register)).then(|| format!("clocks: update at {local}, offset {offset}: {}", updated.0))
    }

    /// The same where an import has to be refused, or an update.
    fn let_in(&self, time: &str, offset: i64, number: u64) -> Option<String> {
        let right = match number {
            22 => self.sent.imported(self.import, time, offset) == (22, vec![0; SLOT], vec![UNWRITTEN; 174]),
            _ => self.sent.updated(self.update, time, offset) == (number, vec![0; SLOT]),
        };
        (!right).then(|| format!("clocks: {time}, offset {offset}: not {number}"))
    }
}

/// The days of these years, in order.
fn days(years: std::ops::RangeInclusive<u32>) -> Vec<String> {
    let all = years.flat_map(|year| dates_of(&format!("{year:04}")));
    all.filter(|(_, real)| *real).map(|(date, _)| date).collect()
}

/// From each day into the next one and back, by a minute.
fn between_days(tried: &Tried, days: &[String]) -> Option<String> {
    days.windows(2).find_map(|pair| {
        let (last, first) = (format!("{}235930", pair[0]), format!("{}000030", pair[1]));
        let later = Moment { utc: last.clone(), offset: 1, local: first.clone() };
        let earlier = Moment { utc: first, offset: -1, local: last };
        tried.other(&later).or_else(|| tried.other(&earlier))
    })
}

/// So many minutes after the first of three days began.
fn minute(days: [&str; 3], minute: usize) -> String {
    format!("{}{:02}{:02}07", days[minute / 1440], minute / 60 % 24, minute % 60)
}

/// Every minute of a day with some offsets, and every offset at noon: times that are counted from the day before.
fn minutes(tried: &Tried) -> Option<String> {
    let days = ["20240228", "20240229", "20240301"];
    let some = (0..1440).flat_map(|of_day| [-720, -60, 0, 330, 840].map(|offset| (1440 + of_day, offset)));
    let mut all = some.chain((-720..=840).map(|offset| (1440 + 720, offset)));
    all.find_map(|(at, offset)| {
        let local = minute(days, (at as i64 + offset) as usize);
        tried.other(&Moment { utc: minute(days, at), offset, local })
    })
}

/// Offsets that are none.
fn out_of_range(tried: &Tried) -> Option<String> {
    let near = (-3000..=3000).filter(|offset| !(-720..=840).contains(offset));
    let far = [i64::MIN, i64::MIN + 1, -(1 << 32), (1 << 32) + 60, i64::MAX - 1, i64::MAX];
    near.chain(far).find_map(|offset| {
        let noon = "20250310120000";
        tried.let_in(noon, offset, 22).or_else(|| tried.let_in(noon, offset, 52))
    })
}

/// At their places among the refusals: an offset out of range beside a wrong mode, a torn register or copy, a line without `1` in
/// front, and no slot.
fn at_their_places(tried: &Tried) -> Option<String> {
    let (sent, offset) = (&tried.sent, 841);
    let import = |(mode, slot, expected): (u64, &[u8], u64)| {
        let (mut register, mut hgc) = (slot.to_vec(), [UNWRITTEN; 174]);
        let done = (tried.import)(mode, sample::RECEPTION, offset, &mut register, &sent.rows, &sent.hgv, &mut hgc);
        (done.number != expected).then(|| format!("clocks: import, offset {offset}: {}, not {expected}", done.number))
    };
    let mut faulty = sent.hgv.clone();
    faulty[128] = b'2';
    let update = |(mode, slot, hgv, expected): (u64, &[u8], &[u8], u64)| {
        let hgc = sent.hgc("20250310050000");
        let done = (tried.update)(mode, offset, &mut slot.to_vec(), hgv, &hgc);
        (done.number != expected).then(|| format!("clocks: update, offset {offset}: {}, not {expected}", done.number))
    };
    let imports = [(3, &[0; SLOT][..], 21), (1, &[0], 22)];
    let updates = [
        (3, &[0; SLOT][..], &sent.hgv[..], 21),
        (1, &[0], &sent.hgv, 23),
        (1, &[0; SLOT], &faulty, 32),
        (1, &[], &sent.hgv, 52),
    ];
    imports.into_iter().find_map(import).or_else(|| updates.into_iter().find_map(update))
}

/// Both sides of the first and of the last moment, by both clocks.
fn at_the_ends(tried: &Tried) -> Option<String> {
    let right = [
        ("00010101000100", -1, "00010101000000"),
        ("00010101000000", 1, "00010101000100"),
        ("00010101120000", -720, "00010101000000"),
        ("00010101000000", 840, "00010101140000"),
        ("99991231235859", 1, "99991231235959"),
        ("99991231235959", -1, "99991231235859"),
        ("99991231095959", 840, "99991231235959"),
        ("99991231235959", -720, "99991231115959"),
    ];
    let wrong = [
        ("00010101000000", -1),
        ("00010101000059", -1),
        ("00010101115959", -720),
        ("99991231235959", 1),
        ("99991231235900", 1),
        ("99991231120000", 720),
        ("99991231100000", 840),
    ];
    let moment = |&(utc, offset, local): &(&str, i64, &str)| {
        tried.other(&Moment { utc: utc.to_string(), offset, local: local.to_string() })
    };
    // What leaves the calendar ahead of UTC leaves it behind local time.
    let leaves =
        |&(time, offset): &(&str, i64)| tried.let_in(time, offset, 22).or_else(|| tried.let_in(time, -offset, 52));
    right.iter().find_map(moment).or_else(|| wrong.iter().find_map(leaves))
}

/// The first that is answered otherwise.
pub fn all(import: Import, update: Update) -> Option<String> {
    let tried = Tried { sent: Sent::new(), import, update };
    let ends = || at_their_places(&tried).or_else(|| out_of_range(&tried)).or_else(|| at_the_ends(&tried));
    let of_days = || [1..=4, 1896..=2296, 9996..=9999].into_iter().find_map(|years| between_days(&tried, &days(years)));
    minutes(&tried).or_else(ends).or_else(of_days)
}
