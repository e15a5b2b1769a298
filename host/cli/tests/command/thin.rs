//! 35: a full list that is too thin. The refusal says how many records are held and how many lines would be taken.

use crate::common::*;
use graftspindle::sizes::SLOT;
use graftspindle_checks::sample::{self, slots};
use std::ops::Range;

const FULL: &str =
    "import --register @register --issuers @rows --mode full --received 20250310050000 --hgc @confirmed @sent";

/// The same line as a record of another provider.
fn foreign(i: usize) -> String {
    sample::line(i).replacen("900123", "900124", 1)
}

/// A register with these records and two free slots; the sender's rows; no HGC yet.
fn holding(records: impl IntoIterator<Item = String>) -> Folder {
    let folder = Folder::new();
    folder.write("register", &[slots(records), vec![0; 2 * SLOT]].concat());
    folder.write("rows", &sample::row());
    folder
}

fn lines(all: Range<usize>) -> Vec<String> {
    all.map(sample::line).collect()
}

fn send(folder: &Folder, list: &[String], line: &str) -> Ran {
    folder.write("sent", &sample::hgv_of(list));
    graftspindle(folder, line)
}

/// What is said beside the sentence of 35: the records and the lines.
fn said_of(folder: &Folder, records: &str, lines: &str) -> String {
    let (register, sent) = (folder.text("register"), folder.text("sent"));
    let (taken, rejected) = lines.split_once(", ").expect("taken and rejected");
    format!(
        "twice the lines taken are fewer than the records held for the sender: {register} holds {records} of 900123, and \
         {taken} of {sent} would be taken and {rejected} rejected; send the whole list or, where so many accounts really \
         went, full lists in steps of at least half"
    )
}

/// The list is refused with one line on standard error; no file is changed, and none comes: no HGC is written.
fn assert_thin(folder: &Folder, list: &[String], records: &str, lines: &str) {
    folder.write("sent", &sample::hgv_of(list));
    let before = folder.all();
    let done = graftspindle(folder, FULL);
    let words = said_of(folder, records, lines);
    assert_eq!((done.status, done.fault), (35, format!("graftspindle: 35: {words}\n")));
    assert_eq!(done.said, "");
    assert!(folder.all() == before);
}

/// The list is taken as a full one, and so many records are held then.
fn assert_taken(folder: &Folder, list: &[String], used: usize) {
    let done = send(folder, list, FULL);
    assert_eq!((done.status, done.fault.as_str()), (0, ""));
    let kept = folder.read("register").chunks(SLOT).filter(|slot| slot[0] != 0).count();
    assert_eq!(kept, used);
}

#[test]
fn four_held_and_one_taken() {
    let folder = holding(lines(0..4));
    assert_thin(&folder, &lines(0..1), "4 records", "1 line, 0");
    assert_thin(&folder, &lines(7..8), "4 records", "1 line, 0");
    assert_thin(&folder, &[], "4 records", "0 lines, 0");
    assert_taken(&folder, &lines(0..2), 2);
}

#[test]
fn empty_list() {
    let folder = holding(lines(0..1));
    assert_thin(&folder, &[], "1 record", "0 lines, 0");
    assert_thin(&folder, &[sample::faulty_line(0)], "1 record", "0 lines, 1");
    assert_taken(&folder, &lines(5..6), 1);
}

/// Half passes, rounded up where the records are odd; one line less does not.
#[test]
fn half_passes() {
    for (held, records, fewer, half) in [
        (1, "1 record", "0 lines, 0", 1),
        (2, "2 records", "0 lines, 0", 1),
        (3, "3 records", "1 line, 0", 2),
        (4, "4 records", "1 line, 0", 2),
        (5, "5 records", "2 lines, 0", 3),
        (8, "8 records", "3 lines, 0", 4),
        (9, "9 records", "4 lines, 0", 5),
    ] {
        let folder = holding(lines(0..held));
        assert_thin(&folder, &lines(0..half - 1), records, fewer);
        assert_taken(&folder, &lines(0..half), half);
    }
}

/// The way that the refusal names, to its end: the last record stays.
#[test]
fn in_steps() {
    let folder = holding(lines(0..22));
    let eleven: Vec<String> = [lines(0..10), vec![sample::faulty_line(10)]].concat();
    assert_thin(&folder, &eleven, "22 records", "10 lines, 1");
    for kept in [11, 6, 3, 2, 1] {
        assert_taken(&folder, &lines(0..kept), kept);
    }
    assert_thin(&folder, &[], "1 record", "0 lines, 0");
}

/// Lines that their own rules, another provider's record and an earlier line of the file reject: what would be taken is what
/// an incremental list takes of the same lines.
#[test]
fn rejected_lines_and_other_providers() {
    let records = (0..5).flat_map(|i| [foreign(20 + i), sample::line(i)]);
    let folder = holding(records);
    let list = [0, 1, 23, 1].map(sample::line).into_iter().chain([sample::faulty_line(2)]).collect::<Vec<_>>();
    assert_thin(&folder, &list, "5 records", "2 lines, 3");
    let done = send(&folder, &list, &FULL.replace("full", "incremental"));
    assert!(done.status == 0 && done.said.starts_with("taken 2, rejected 3; "), "{}{}", done.said, done.fault);
    let whole: Vec<String> = list.into_iter().chain(lines(3..4)).collect();
    assert_taken(&folder, &whole, 5 + 3);
}

#[test]
fn ended_records_are_held() {
    let ended = |i| {
        let mut line = sample::line(i);
        line.replace_range(100..114, "20240101000000");
        line
    };
    let folder = holding((0..3).map(ended).chain(lines(3..4)));
    assert_thin(&folder, &lines(3..4), "4 records", "1 line, 0");
    assert_taken(&folder, &lines(3..5), 2);
}

/// Each slot of the largest register is used, a few by another provider.
#[test]
fn full_register() {
    let folder = holding([]);
    let records = (0..8192).map(|i| if i % 1000 == 7 { foreign(i) } else { sample::line(i) });
    folder.write("register", &slots(records));
    let mine = |most: usize| (0..8192).filter(|i| i % 1000 != 7).map(sample::line).take(most).collect::<Vec<_>>();
    assert_thin(&folder, &mine(4091), "8183 records", "4091 lines, 0");
    assert_taken(&folder, &mine(4092), 9 + 4092);
}

/// An incremental list, and a full one of a sender for whom nothing is held.
#[test]
fn lists_that_are_not_asked() {
    let folder = holding(lines(0..4));
    let incremental = FULL.replace("full", "incremental");
    for list in [lines(0..1), Vec::new()] {
        assert_eq!(send(&folder, &list, &incremental).status, 0);
    }
    let folder = holding((0..4).map(foreign));
    for list in [Vec::new(), vec![sample::faulty_line(9)]] {
        assert_taken(&folder, &list, 4);
    }
}

/// The provider's own copy follows what was confirmed, however thin it is.
#[test]
fn update_of_a_copy() {
    let folder = holding([]);
    assert_taken(&folder, &lines(0..1), 1);
    folder.write("copy", &slots(lines(0..4)));
    let done = graftspindle(&folder, "update --copy @copy --mode full @sent @confirmed");
    assert_eq!((done.status, done.fault.as_str()), (0, ""));
    assert_eq!(folder.read("copy"), [slots(lines(0..1)), vec![0; 3 * SLOT]].concat());
}

/// What is wrong with the file itself is said first.
#[test]
fn stops_before_it() {
    let folder = holding(lines(0..4));
    let list = sample::line(0).replacen('1', "2", 1);
    assert_eq!(send(&folder, &[list], FULL).status, 32);
    assert!(!exists(&folder, "confirmed"));
}

#[test]
fn json_and_journal() {
    let folder = holding(lines(0..3));
    let done = send(&folder, &lines(0..1), &FULL.replace("--hgc", "--json --journal @journal --hgc"));
    let words = said_of(&folder, "3 records", "1 line, 0");
    assert_eq!((done.status, done.said), (35, format!("{{\"status\":35,\"words\":\"{words}\"}}\n")));
    let journal = String::from_utf8(folder.read("journal")).expect("UTF-8");
    assert_eq!(journal.lines().count(), 1);
    assert!(journal.contains("\"status\":35,") && journal.contains(&format!("\"words\":\"{words}\"")), "{journal}");
    assert!(!journal.contains("\"taken\"") && !journal.contains("\"hgc\""), "{journal}");
}

#[test]
fn standard_input() {
    let folder = holding(lines(0..3));
    let done = fed(&folder, &FULL.replace("@sent", "-"), &sample::hgv(1));
    assert_eq!(done.status, 35);
    assert!(done.fault.contains(", and 1 line of standard input would be taken and 0 rejected; "), "{}", done.fault);
}
