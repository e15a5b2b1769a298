//! `register show --weights`: the records whose weight a line of their tariff cannot have.

use crate::common::*;
use graftspindle::sizes::SLOT;
use graftspindle_checks::sample;

const SHOW: &str = "register show --weights --at 20250310050000 @register";
const NAMES: &str = "slot,actor,pan,plate,nationality,context_mark,obe,end,active,tariff,weight,kg_from,kg_to";
const TARIFFS: [&str; 8] = ["12", "22", "31", "32", "41", "51", "63", "71"];

/// Tariff and weight.
type Pair = (&'static str, &'static str);

/// Those that are listed, and the kilograms of each.
const WRONG: [(Pair, &str); 8] = [
    (("12", "9999"), "99991,100000"),
    (("12", "0350"), "3501,3510"),
    (("22", "0350"), "3501,3510"),
    (("31", "0349"), "3491,3500"),
    (("32", "0001"), "11,20"),
    (("41", "0349"), "3491,3500"),
    (("41", "1200"), "12001,12010"),
    (("51", "1199"), "11991,12000"),
];

const RIGHT: [Pair; 11] = [
    ("12", "0349"),
    ("22", "0349"),
    ("31", "0350"),
    ("32", "0350"),
    ("41", "0350"),
    ("41", "1199"),
    ("51", "1200"),
    ("63", "0001"),
    ("63", "9999"),
    ("71", "0350"),
    ("71", "9999"),
];

/// The sample's line with this tariff and this weight, which is a record too.
fn record(i: usize, tariff: &str, weight: &str) -> Vec<u8> {
    let mut line = sample::line(i).into_bytes();
    line[45..47].copy_from_slice(tariff.as_bytes());
    line[96..100].copy_from_slice(weight.as_bytes());
    line
}

/// A register with a record for each pair, in their order, and two free slots.
fn holding(pairs: &[(&str, &str)]) -> Folder {
    let folder = ready();
    let records = pairs.iter().enumerate().map(|(i, (tariff, weight))| record(i, tariff, weight));
    folder.write("register", &[sample::slots(records), vec![0; 2 * SLOT]].concat());
    folder
}

/// What is said with status 0; nothing is changed.
fn said(folder: &Folder, line: &str) -> String {
    let before = folder.all();
    let done = graftspindle(folder, line);
    assert_eq!((done.status, done.fault.as_str()), (0, ""), "{line}");
    assert!(folder.all() == before, "{line}");
    done.said
}

/// The row of the record at this place.
fn row(i: usize, (tariff, weight): Pair, kilograms: &str) -> String {
    let (pan, zeros) = (sample::pan(i), "0".repeat(14));
    let front = format!("{i},900123,{pan},GS{i:04},DE,{:0>12},{:0>18}", format!("{i:X}"), format!("{i:X}"));
    format!("{front},{zeros},true,{tariff},{weight},{kilograms}")
}

/// Between each two that are listed stand some that are not: the order of the slots stays.
#[test]
fn listed() {
    let right = |i: usize| RIGHT[i % RIGHT.len()];
    let pairs: Vec<Pair> =
        WRONG.iter().enumerate().flat_map(|(i, (pair, _))| [right(i), *pair, right(i + 8)]).collect();
    let told = said(&holding(&pairs), SHOW);
    let rows = WRONG.iter().enumerate().map(|(i, (pair, kilograms))| row(3 * i + 1, *pair, kilograms));
    let last = "listed 8 of 24 records: no line of the tariff can have the weight".to_string();
    let expected: Vec<String> = [NAMES.to_string()].into_iter().chain(rows).chain([last]).collect();
    assert_eq!(told.lines().collect::<Vec<&str>>(), expected);
}

/// A weight on the right side of each limit, and one that is missing.
#[test]
fn none() {
    let missing = TARIFFS.map(|tariff| (tariff, "0000"));
    let folder = holding(&[&RIGHT[..], &missing[..]].concat());
    assert_eq!(said(&folder, SHOW), "listed none of 19 records: a line of the tariff can have the weight of each\n");
    let told = said(&folder, &format!("{SHOW} --json"));
    assert_eq!(told, "{\"status\":0,\"used\":19,\"listed\":0,\"records\":[]}\n");
    folder.write("register", &[0; 3 * SLOT]);
    assert_eq!(said(&folder, SHOW), "listed none of 0 records: a line of the tariff can have the weight of each\n");
}

/// Alone and in JSON; the register is in order, and a lookup finds the record.
#[test]
fn one_as_json() {
    let folder = holding(&[("12", "9999")]);
    let told = said(&folder, SHOW);
    assert_eq!(told.lines().last(), Some("listed 1 of 1 record: no line of the tariff can have the weight"));
    let (told, pan) = (said(&folder, &format!("{SHOW} --json")), sample::pan(0));
    let front = format!(
        "{{\"status\":0,\"used\":1,\"listed\":1,\"records\":[{{\"slot\":0,\"actor\":\"900123\",\"pan\":\"{pan}\""
    );
    assert!(told.starts_with(&front), "{told}");
    let back = r#""active":true,"tariff":"12","weight":"9999","kg_from":99991,"kg_to":100000}]}"#;
    assert!(told.ends_with(&format!("{back}\n")), "{told}");
    assert!(said(&folder, "register check @register").contains("in order"));
    assert!(said(&folder, &format!("lookup pan --register @register {pan}")).contains(&pan));
    assert_eq!(said(&folder, "register show @register").lines().last(), Some("slots 3, used 1, free 2"));
}

/// Of every actor, and whether they are active at the time or ended.
#[test]
fn actors_and_times() {
    let folder = holding(&[("12", "0350"), ("51", "1199")]);
    let mut other = record(1, "51", "1199");
    other[1..7].copy_from_slice(b"900124");
    other[100..114].copy_from_slice(b"20250310050000");
    folder.write("register", &sample::slots([record(0, "12", "0350"), other]));
    let told = said(&folder, SHOW);
    let lines: Vec<&str> = told.lines().collect();
    assert!(lines[1].starts_with("0,900123,") && lines[1].ends_with(",true,12,0350,3501,3510"), "{told}");
    assert!(lines[2].starts_with("1,900124,") && lines[2].ends_with(",false,51,1199,11991,12000"), "{told}");
    let told = said(&folder, &SHOW.replace("20250310050000", "20250310045959"));
    assert!(told.contains(",20250310050000,true,51,1199,"), "{told}");
}

/// As it is without the option: a register out of order, a time that is not real, also where nothing is listed.
#[test]
fn refusals() {
    let folder = holding(&[("12", "0349")]);
    let refused = |line: &str, status: i32, words: &str| {
        let without = line.replace(" --weights", "");
        for line in [line, &without] {
            let done = graftspindle(&folder, line);
            assert_eq!((done.status, done.said.as_str()), (status, ""), "{line}");
            assert!(done.fault.contains(words) && done.fault.lines().count() == 1, "{}", done.fault);
        }
    };
    refused(&SHOW.replace("20250310050000", "20250230050000"), 22, "20250230050000");
    refused(&SHOW.replace("@register", "@absent"), 1, "absent");
    refused(
        "register show --weights",
        1,
        "usage: graftspindle register show [--at YYYYMMDDhhmmss] [--weights] [--lists] R",
    );
    let twice = [record(0, "12", "9999"), record(0, "12", "9999")];
    for wrong in [&[record(0, "13", "0349")][..], &[record(0, "12", "034 ")], &twice] {
        folder.write("register", &sample::slots(wrong));
        refused(SHOW, 23, &folder.text("register"));
    }
    assert_eq!(graftspindle(&folder, "register list --weights @register").status, 1);
}

/// The slots of the records that are listed.
fn slots(told: &str) -> Vec<usize> {
    let first = |line: &str| line.split(',').next().and_then(|slot| slot.parse().ok());
    told.lines().filter_map(first).collect()
}

/// What is listed is what an import rejects for its weight, whatever the limits are.
#[test]
fn as_an_import_judges() {
    let codes = (0..2).chain(346..354).chain(1196..1204).chain([3500, 3510, 9999]).map(|code| format!("{code:04}"));
    let codes: Vec<String> = codes.collect();
    let pairs: Vec<(&str, &str)> =
        TARIFFS.iter().flat_map(|tariff| codes.iter().map(|code| (*tariff, code.as_str()))).collect();
    let folder = holding(&pairs);
    let lines: Vec<Vec<u8>> = pairs.iter().enumerate().map(|(i, (tariff, weight))| record(i, tariff, weight)).collect();
    folder.write("hgv", &sample::hgv_of(&lines));
    assert_eq!(graftspindle(&folder, "register new --slots 200 @fresh").status, 0);
    assert_eq!(graftspindle(&folder, &IMPORT.replace("@register", "@fresh")).status, 0);
    let rejected = said(&folder, "read-back --rejected @hgv @hgc");
    let reasons: Vec<&str> = rejected.lines().filter(|line| line.contains("rejected 12: miscellaneous")).collect();
    let numbers = reasons.iter().filter_map(|line| line.split_whitespace().next()?.parse::<usize>().ok());
    let numbers: Vec<usize> = numbers.map(|number| number - 1).collect();
    assert_eq!(slots(&said(&folder, SHOW)), numbers);
    assert!(!numbers.is_empty() && numbers.len() < pairs.len(), "{} of {}", numbers.len(), pairs.len());
    let taken = pairs.len() - numbers.len();
    assert!(rejected.ends_with(&format!("taken {taken}, rejected {}\n", numbers.len())), "{rejected}");
    assert!(
        said(&folder, &SHOW.replace("@register", "@fresh")).starts_with(&format!("listed none of {taken} records: "))
    );
}

/// A line that repeats the record is rejected: an incremental list leaves the record, a full one removes it. A line with the
/// right tariff replaces it.
#[test]
fn what_a_list_makes_of_it() {
    let (light, heavy) = ([("12", "0350"), ("63", "0350")], [("32", "0350"), ("63", "0350")]);
    let full = IMPORT.replace("incremental", "full");
    for (pairs, line, rejected, last) in [
        (light, IMPORT, 1, "listed 1 of 2 records: no line of the tariff can have the weight"),
        (light, &full, 1, "listed none of 1 record: a line of the tariff can have the weight of each"),
        (heavy, IMPORT, 0, "listed none of 2 records: a line of the tariff can have the weight of each"),
        (heavy, &full, 0, "listed none of 2 records: a line of the tariff can have the weight of each"),
    ] {
        let folder = holding(&light);
        let lines: Vec<Vec<u8>> = (0..).zip(pairs).map(|(i, (tariff, weight))| record(i, tariff, weight)).collect();
        folder.write("hgv", &sample::hgv_of(&lines));
        let done = graftspindle(&folder, line);
        let counts = format!("taken {}, rejected {rejected}; ", 2 - rejected);
        assert!(done.status == 0 && done.said.starts_with(&counts), "{}{}", done.said, done.fault);
        assert_eq!(said(&folder, SHOW).lines().last(), Some(last));
    }
}

#[test]
fn largest_register() {
    let folder = ready();
    let weight = |i: usize| ["0349", "0350"][i % 2];
    let records: Vec<Vec<u8>> = (0..8192).map(|i| record(i, "31", weight(i))).collect();
    folder.write("register", &sample::slots(records));
    let told = said(&folder, SHOW);
    assert!(told.ends_with("listed 4096 of 8192 records: no line of the tariff can have the weight\n"));
    assert_eq!(slots(&told), (0..8192).step_by(2).collect::<Vec<usize>>());
}
