//! A list written from a CSV file: every byte of it, however a spreadsheet saved the accounts, and where it is put.

use crate::common::*;
use crate::tables::*;
use graftspindle_checks::sample;
use graftspindle_cli::command::clock;
use graftspindle_cli::files::{lock, Place};

fn assert_written(csv: impl AsRef<[u8]>, told: &str) {
    let folder = given(csv);
    let done = graftspindle(&folder, WRITE);
    assert_eq!((done.status, done.fault.as_str()), (0, ""), "{told}");
    let said = format!("3 accounts; the HGV is {}, list HGV9001232025031001\n", folder.text("out"));
    assert_eq!(done.said, said, "{told}");
    assert!(folder.read("out") == expected("accounts.hgv"), "{told}: {}", String::from_utf8_lossy(&folder.read("out")));
}

/// The same table with other words around each field and behind each line.
fn saved(separator: &str, quote: &str, end: &str) -> String {
    let line = |fields: &Account| fields.map(|field| format!("{quote}{field}{quote}")).join(separator) + end;
    [NAMES].iter().chain(&ACCOUNTS).map(line).collect()
}

#[test]
fn as_spreadsheets_save_it() {
    assert_written(table(&ACCOUNTS), "plain");
    for separator in [",", ";"] {
        for quote in ["", "\""] {
            for end in ["\n", "\r\n"] {
                let csv = saved(separator, quote, end);
                let told = format!("{csv:?}");
                assert_written(&csv, &told);
                assert_written(csv.trim_end(), &told);
                assert_written(format!("\u{feff}{csv}"), &told);
                assert_written(format!("{csv}{end}{end}{}{end}", separator.repeat(15)), &told);
            }
        }
    }
}

#[test]
fn columns_in_any_order() {
    let turned = |places: &[usize]| -> String {
        let line = |fields: &Account| places.iter().map(|&i| fields[i]).collect::<Vec<_>>().join(",") + "\n";
        [NAMES].iter().chain(&ACCOUNTS).map(line).collect()
    };
    let backward: Vec<usize> = (0..16).rev().collect();
    assert_written(turned(&backward), "backward");
    for first in 0..16 {
        assert_written(turned(&(0..16).map(|i| (first + i) % 16).collect::<Vec<_>>()), &format!("from {first} on"));
    }
}

/// Capitals, blanks and line breaks around names; blanks around text; nothing where zeros mean missing; no zeros in front.
#[test]
fn values_as_people_enter_them() {
    let mut csv = table(&ACCOUNTS);
    csv = csv.replacen("pan,plate,nationality", "\"Pan\n\", PLATE ,\" Nationality\r\n \"", 1);
    csv = csv.replacen("valid_to", "VALID_TO", 1);
    for (from, to) in [
        (",ABC123,NO,12,,", ", ABC123 ,NO ,12, ,"),
        ("9799001200000010,", "9799001200000010  ,"),
        ("Euro6,02,N,004,00,0180,00000000000000,30", "Euro6  ,2,N, 4,,180,,30"),
        (",0,05,Y,255,07,1800,", ",0,5,Y,255,7,1800,"),
        (",EEV,15,N,000,00,0000,00000000000000,00", ",EEV,15,N,,,,,"),
    ] {
        assert!(csv.contains(from), "{from}");
        csv = csv.replace(from, to);
    }
    assert_written(&csv, &csv);
}

/// Two quotes inside quotes are one, and a separator inside is none: both are the value's, so that they are refused.
#[test]
fn quotes_inside_quotes() {
    for (value, shown) in [("A\"\"B", "\"A\"B\""), ("A,B", "\"A,B\""), ("A\nB", "\"A?B\""), ("A;B", "\"A;B\"")] {
        let folder = given(with("plate", value));
        let done = graftspindle(&folder, WRITE);
        assert_eq!(done.status, 61, "{value}");
        assert!(done.fault.contains(&format!("line 3, plate {shown}, expected")), "{}", done.fault);
    }
}

#[test]
fn no_accounts() {
    let folder = given(table(&[]));
    let done = graftspindle(&folder, WRITE);
    assert!(done.status == 0 && done.said.starts_with("0 accounts; "), "{}", done.fault);
    assert_eq!(folder.read("out"), sample::hgv(0));
    folder.write("csv", table(&ACCOUNTS[..1]).as_bytes());
    assert!(graftspindle(&folder, WRITE).said.starts_with("1 account; "));
}

/// The header's fields that may be given or not.
#[test]
fn header() {
    let folder = given(table(&ACCOUNTS));
    let before = clock::now();
    let line =
        WRITE.replace(" --created 20250310040000", "").replace("120001", "220001").replace("number 1", "number 99");
    let done = graftspindle(&folder, &line.replace("--hgv", "--previous HGV9001232025030907 --hgv"));
    assert!(done.status == 0 && done.said.ends_with("list HGV9001232025031099\n"), "{}{}", done.said, done.fault);
    let (hgv, right) = (folder.read("out"), expected("accounts.hgv"));
    assert_eq!(&hgv[..30], &right[..30]);
    assert_eq!(&hgv[30..51], b"99HGV9001232025030907");
    assert_eq!(&hgv[51..80], &right[51..80]);
    assert!(before.as_slice() <= &hgv[80..94] && &hgv[80..94] <= clock::now().as_slice());
    assert_eq!(&hgv[94..100], b"220001");
    assert!(hgv[100..] == right[100..]);
}

#[test]
fn answers_as_json() {
    let folder = given(table(&ACCOUNTS));
    let done = graftspindle(&folder, &format!("{WRITE} --json"));
    let out = folder.text("out");
    let fields = format!("\"accounts\":3,\"length\":576,\"hgv\":\"{out}\",\"list\":\"HGV9001232025031001\"");
    assert_eq!((done.status, done.said), (0, format!("{{\"status\":0,{fields}}}\n")));
    folder.write("csv", with("plate", "A-B").as_bytes());
    let done = graftspindle(&folder, &format!("{WRITE} --json"));
    assert!(done.status == 61 && done.said.starts_with("{\"status\":61,\"words\":\""), "{}", done.said);
    assert!(done.said.contains("line 3, plate \\\"A-B\\\""), "{}", done.said);
}

/// What is printed is what the repository has, and it can be written and imported as it is.
#[test]
fn template() {
    let printed = graftspindle(&Folder::new(), "write --template").said;
    let file = concat!(env!("CARGO_MANIFEST_DIR"), "/templates/accounts.csv");
    assert_eq!(printed, std::fs::read_to_string(file).expect("it is there"));
    assert_eq!(printed.lines().next(), Some(NAMES.join(",").as_str()));
    let folder = given(&printed);
    let done = graftspindle(&folder, WRITE);
    assert!(done.status == 0 && done.said.starts_with("3 accounts; "), "{}", done.fault);
    assert_eq!(graftspindle(&folder, "register new --slots 3 @register").status, 0);
    let done = graftspindle(&folder, &IMPORT.replace("@hgv", "@out"));
    assert!(done.status == 0 && done.said.starts_with("taken 3, rejected 0; "), "{}{}", done.said, done.fault);
    let json = graftspindle(&folder, "write --template --json");
    assert!(json.status == 0 && json.said.contains("\"text\":\"pan,plate,"), "{}", json.said);
}

/// The accounts of the sample's lines.
fn many(count: usize) -> String {
    let line = |i: usize| {
        let (pan, plate, number) = (sample::pan(i), sample::plate(i), format!("{i:X}"));
        format!("{pan},{plate},DE,31,1,0,{number:0>12},{number:0>18},Euro6,2,Y,,,,,\n")
    };
    table(&[]) + &(0..count).map(line).collect::<String>()
}

/// As many as a list can have, and one more.
#[test]
fn limit() {
    let folder = given(many(8192));
    folder.write("rows", &sample::row());
    let done = graftspindle(&folder, WRITE);
    assert_eq!((done.status, done.fault.as_str()), (0, ""));
    assert!(folder.read("out") == sample::hgv(8192));
    folder.write("csv", many(8193).as_bytes());
    let done = graftspindle(&folder, WRITE);
    assert_eq!(done.status, 61);
    assert!(done.fault.contains("has 8193 accounts, and no list has more than 8192"), "{}", done.fault);
    assert!(folder.read("out") == sample::hgv(8192));
}

#[test]
fn from_standard_input() {
    let folder = given(b"");
    let line = WRITE.replace("@csv", "-");
    assert_eq!(fed(&folder, &line, table(&ACCOUNTS).as_bytes()).status, 0);
    assert!(folder.read("out") == expected("accounts.hgv"));
    let refused = fed(&folder, &line, with("plate", "A-B").as_bytes());
    assert!(refused.status == 61 && refused.fault.contains("standard input line 3, plate"), "{}", refused.fault);
    assert_eq!(fed(&folder, &line.replace("@rows", "-"), b"").status, 1);
    let refused = graftspindle(&folder, &WRITE.replace("@out", "-"));
    assert!(refused.status == 1 && refused.fault.contains("--hgv - cannot be"), "{}", refused.fault);
}

/// An HGV of any list or an empty file is replaced; another kind only by force, and what the list is made from never.
#[test]
fn what_is_replaced() {
    let folder = given(table(&ACCOUNTS));
    for there in [sample::hgv(0), sample::hgv(3), Vec::new()] {
        folder.write("out", &there);
        assert_eq!(graftspindle(&folder, WRITE).status, 0);
        assert!(folder.read("out") == expected("accounts.hgv"));
    }
    let torn = expected("accounts.hgv")[1..].to_vec();
    let (hgc, register) = (both(&ready()).1.expect("it has one"), ready().read("register"));
    for there in [torn, hgc, register, folder.read("rows"), folder.read("csv"), b"a letter\n".to_vec()] {
        folder.write("out", &there);
        let before = folder.all();
        let done = graftspindle(&folder, WRITE);
        assert!(done.status == 1 && done.fault.contains("is no HGV: it is not replaced; --force"), "{}", done.fault);
        assert!(folder.all() == before);
        assert_eq!(graftspindle(&folder, &format!("{WRITE} --force")).status, 0);
        assert!(folder.read("out") == expected("accounts.hgv"));
    }
    let before = folder.all();
    for name in ["rows", "csv"] {
        let done = graftspindle(&folder, &format!("{WRITE} --force").replace("@out", &format!("@{name}")));
        let words = format!("--hgv would replace {}", folder.text(name));
        assert!(done.status == 1 && done.fault.contains(&words), "{}", done.fault);
        assert!(folder.all() == before, "{name}");
    }
}

#[test]
fn another_at_work() {
    let folder = given(table(&ACCOUNTS));
    let held = lock::take(&Place::at(folder.path("out")), None).expect("it is free");
    let line = WRITE.replace("--hgv", "--wait 0 --hgv");
    assert_eq!((graftspindle(&folder, &line).status, exists(&folder, "out")), (4, false));
    drop(held);
    assert_eq!((graftspindle(&folder, &line).status, exists(&folder, "out")), (0, true));
}
