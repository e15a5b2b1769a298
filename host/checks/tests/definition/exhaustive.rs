//! Whole ranges: every value that the paper lists and every value that it leaves out, every length, every changed byte; all
//! implementations beside the lists.

use crate::common::*;
use graftspindle_checks::generate::line::{right_separators, weights, wrong_separators};
use graftspindle_checks::generate::line::{PLATE_CHARACTERS, WRONG_FIELDS};
use graftspindle_checks::plain::line::{breaks_l10, separator_right};
use graftspindle_checks::plain::register::SLOT;
use graftspindle_checks::tried::{pans, times, trials};
use graftspindle_checks::{lists, sample};

/// The verdicts of lines with the sample's sender, in an import that is read back.
fn told(engine: &Engine, lines: &[Vec<u8>]) -> Vec<u8> {
    let file = sample::hgv_of(lines);
    let outcome = run(engine, 1, R0, &free(lines.len()), &sample::row(), &file, 174 + 130 * lines.len());
    verdicts(engine, &file, &outcome)
}

#[test]
fn fields_as_lines_and_as_records() {
    for trial in trials() {
        for engine in ENGINES {
            let other = trial.as_lines(|lines| told(engine, lines)).or_else(|| trial.as_records(engine.in_order));
            assert_eq!(other, None, "{}", engine.name);
        }
    }
}

/// Is the time of a lookup taken for a real one. The register is empty.
fn is_real(engine: &Engine, time: &[u8]) -> bool {
    match (engine.by_plate)(&[], b"ABC123    ", b"NO ", time).0 {
        22 => false,
        number => number == 41,
    }
}

#[test]
fn dates_of_all_years() {
    for engine in ENGINES {
        assert_eq!(times::all_dates(|time| is_real(engine, time)), None, "{}", engine.name);
    }
    // 24 cycles of 400 years, and 399 years more; a cycle has 146,097 days, year 400 is a leap year.
    assert_eq!(times::real_dates(), 24 * 146_097 + 146_097 - 366);
}

#[test]
fn times_of_a_day() {
    for engine in ENGINES {
        assert_eq!(times::all_times(|time| is_real(engine, time)), None, "{}", engine.name);
    }
}

#[test]
fn check_digits_of_all_lengths() {
    for engine in ENGINES {
        assert_eq!(pans::all_lengths(engine.in_order), None, "{}", engine.name);
    }
}

/// What the generator takes for right and wrong is what the paper lists.
#[test]
fn lists_of_the_generator() {
    assert_eq!(PLATE_CHARACTERS, lists::PLATE);
    for k in 1..=10 {
        let listed: Vec<&[u8]> = lists::SEPARATORS[k - 1].split(' ').map(str::as_bytes).collect();
        assert!(right_separators(k).iter().all(|pq| listed.contains(&&pq[..])));
        assert!(!wrong_separators(k).iter().any(|pq| listed.contains(&&pq[..])));
        assert!((0..100)
            .map(|n| format!("{n:02}").into_bytes())
            .all(|pq| separator_right(&pq, k as u64) == listed.contains(&&pq[..])));
    }
    for (tariff, from, to) in lists::WEIGHTS {
        let (least, most) = weights(tariff.as_bytes());
        assert_eq!((format!("{least:04}").as_str(), format!("{most:04}").as_str()), (from, to), "{tariff}");
    }
    for (from, wrong) in WRONG_FIELDS {
        for field in wrong {
            assert!(breaks_l10(&with(LINE0, from, field)), "{from} {field:?}");
        }
    }
}

/// Two records, a line that replaces one, a faulty line.
fn blocks() -> (Vec<u8>, Vec<u8>, Vec<u8>) {
    let register = [slots([x(), with(&y(), 2, b"900124")]), free(1)].concat();
    let file = hgv(&[x_other(), bad()]);
    (register, file, hgc(1, &[(&bad(), "12")]))
}

/// Runs all five on the blocks and gives their numbers.
fn agree(register: &[u8], rows: &[u8], file: &[u8], told: &[u8]) -> [u64; 5] {
    let answers = of_all(|e| {
        let imported = run(e, 1, R0, register, rows, file, 400);
        let pan = (e.by_pan)(register, PAN2);
        let plate = (e.by_plate)(register, b"ABC123    ", b"NO ", R0);
        let mut verdicts = vec![0xEE; 4];
        let back = (e.read_back)(file, told, &mut verdicts);
        let mut copy = free(2);
        let updated = (e.update)(2, 0, &mut copy, file, told);
        (imported, pan, plate, (back, verdicts), (updated, copy))
    });
    let (imported, pan, plate, (back, _), (updated, _)) = answers;
    [imported.answer.number, pan.0, plate.0, back.number, updated.number]
}

#[test]
fn every_length_of_every_block() {
    let (register, file, told) = blocks();
    assert_eq!(agree(&register, ROW0, &file, &told), [0, 0, 42, 0, 0]);
    for length in 0..=700 {
        let cut = |block: &[u8]| {
            let mut block = block.to_vec();
            block.resize(length, b'0');
            block
        };
        let odd = agree(&cut(&register), ROW0, &file, &told);
        assert!(odd[0] == 23 || length % SLOT == 0);
        assert_eq!(odd[1] == 23, odd[0] == 23);
        agree(&register, &cut(ROW0), &file, &told);
        let odd = agree(&register, ROW0, &cut(&file), &told);
        assert!(length == file.len() || odd[0] != 0 && odd[3] != 0 && odd[4] != 0);
        let odd = agree(&register, ROW0, &file, &cut(&told));
        assert!(length == told.len() || odd[3] == 52 && odd[4] == 52);
        agree(&cut(&[]), &cut(&[]), &cut(&[]), &cut(&[]));
    }
}

/// Each byte of a block set to each of the 256 values.
fn every_change<A>(block: &[u8], judge: impl Fn(&[u8]) -> A) {
    for at in 0..block.len() {
        let mut changed = block.to_vec();
        for value in 0..=255 {
            changed[at] = value;
            judge(&changed);
        }
    }
}

#[test]
fn every_changed_byte() {
    let (register, file, told) = blocks();
    every_change(&register, |changed| agree(changed, ROW0, &file, &told));
    every_change(ROW0, |changed| agree(&register, changed, &file, &told));
    every_change(&file, |changed| agree(&register, ROW0, changed, &told));
    every_change(&told, |changed| agree(&register, ROW0, &file, changed));
}
