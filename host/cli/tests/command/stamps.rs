//! "Which file touched this account?" What `lookup` and `register show --lists` say of it, and what is said of a register from
//! before the stamp.

use crate::common::*;
use graftspindle::sizes::{RECORD, SLOT};
use graftspindle_checks::sample;

fn said(folder: &Folder, line: &str) -> String {
    let done = graftspindle(folder, line);
    assert_eq!((done.status, done.fault.as_str()), (0, ""), "{line}");
    done.said
}

/// The sample's list under another number of its day.
fn numbered(lines: &[String], number: &str) -> Vec<u8> {
    let mut hgv = sample::hgv_of(lines);
    hgv[30..32].copy_from_slice(number.as_bytes());
    hgv
}

/// The same list of another provider.
fn of_another(hgv: Vec<u8>) -> Vec<u8> {
    String::from_utf8(hgv).expect("ASCII").replace("900123", "900124").into_bytes()
}

fn lines(all: std::ops::Range<usize>) -> Vec<String> {
    all.map(sample::line).collect()
}

/// Two providers' rows and a register of eight free slots.
fn fresh() -> Folder {
    let folder = Folder::new();
    folder.write("rows", &[&sample::row()[..], b"979900        0616900124"].concat());
    said(&folder, "register new --slots 8 @register");
    folder
}

fn import(folder: &Folder, hgv: &[u8], mode: &str, received: &str) {
    folder.write("hgv", hgv);
    said(folder, &IMPORT.replace("incremental", mode).replace("20250310050000", received));
}

/// Two lists of one provider and one of another; the second touches an account of the first.
fn touched() -> Folder {
    let folder = fresh();
    import(&folder, &numbered(&lines(0..3), "01"), "incremental", "20250310050000");
    import(&folder, &of_another(numbered(&lines(5..7), "01")), "incremental", "20250310060000");
    import(&folder, &numbered(&lines(2..4), "02"), "incremental", "20250310070000");
    folder
}

fn stamp_of(folder: &Folder, line: &str) -> String {
    let told = said(folder, line);
    let head = told.lines().next().expect("it says something");
    head.split_once(", list ").expect("a list").1.to_string()
}

#[test]
fn lookups() {
    let folder = touched();
    let of = |i| stamp_of(&folder, &format!("lookup pan --register @register {}", sample::pan(i)));
    assert_eq!(of(0), "HGV9001232025031001, received 20250310050000");
    assert_eq!(of(1), "HGV9001232025031001, received 20250310050000");
    assert_eq!(of(2), "HGV9001232025031002, received 20250310070000", "replaced");
    assert_eq!(of(3), "HGV9001232025031002, received 20250310070000", "new");
    assert_eq!(of(5), "HGV9001242025031001, received 20250310060000");
    let by_plate = stamp_of(&folder, "lookup plate --register @register GS0002 DE");
    assert_eq!(by_plate, of(2));
}

/// Behind the fields that were there before; the text is the record's.
#[test]
fn lookups_as_json() {
    let (folder, pan) = (touched(), sample::pan(2));
    let text = sample::line(2).trim_end().to_string();
    let front = format!("{{\"status\":0,\"slot\":2,\"actor\":\"900123\",\"pan\":\"{pan}\",\"plate\":\"GS0002\"");
    let behind = format!("\"nationality\":\"DE\",\"end\":\"00000000000000\",\"text\":\"{text}\"");
    let stamp = "\"list\":\"HGV9001232025031002\",\"received\":\"20250310070000\"";
    let told = said(&folder, &format!("lookup pan --json --register @register {pan}"));
    assert_eq!(told, format!("{front},{behind},{stamp}}}\n"));
    assert_eq!(said(&folder, "lookup plate --json --register @register GS0002 DE"), told);
}

const NAMES: &str = "list,records,first_received,last_received\n";

#[test]
fn lists() {
    let folder = touched();
    let rows = "HGV9001232025031001,2,20250310050000,20250310050000\n\
                HGV9001232025031002,2,20250310070000,20250310070000\n\
                HGV9001242025031001,2,20250310060000,20250310060000\n";
    assert_eq!(said(&folder, "register show --lists @register"), format!("{NAMES}{rows}lists 3, records 6\n"));
    let before = folder.all();
    import(&folder, &numbered(&lines(0..2), "03"), "full", "20250311050000");
    assert!(folder.all() != before);
    let rows = "HGV9001232025031003,2,20250311050000,20250311050000\n\
                HGV9001242025031001,2,20250310060000,20250310060000\n";
    assert_eq!(said(&folder, "register show --lists @register"), format!("{NAMES}{rows}lists 2, records 4\n"));
}

/// A list that was sent twice, and the order of dates and numbers.
#[test]
fn lists_in_order() {
    let folder = fresh();
    let dated = |lines: &[String], date: &[u8], number: &str| {
        let mut hgv = numbered(lines, number);
        hgv[22..30].copy_from_slice(date);
        hgv
    };
    import(&folder, &dated(&lines(0..1), b"20250311", "01"), "incremental", "20250311050000");
    import(&folder, &dated(&lines(1..2), b"20250310", "10"), "incremental", "20250312050000");
    import(&folder, &dated(&lines(2..4), b"20250310", "09"), "incremental", "20250309050000");
    import(&folder, &dated(&lines(3..5), b"20250310", "09"), "incremental", "20250308050000");
    let rows = "HGV9001232025031009,3,20250308050000,20250309050000\n\
                HGV9001232025031010,1,20250312050000,20250312050000\n\
                HGV9001232025031101,1,20250311050000,20250311050000\n";
    assert_eq!(said(&folder, "register show --lists @register"), format!("{NAMES}{rows}lists 3, records 5\n"));
}

#[test]
fn lists_as_json() {
    let folder = touched();
    let told = said(&folder, "register show --lists --json @register");
    let first = "{\"list\":\"HGV9001232025031001\",\"records\":2,\"first_received\":\"20250310050000\",\
                 \"last_received\":\"20250310050000\"}";
    assert!(told.starts_with(&format!("{{\"status\":0,\"used\":6,\"listed\":3,\"lists\":[{first},")), "{told}");
    assert!(told.ends_with("}]}\n"), "{told}");
}

#[test]
fn no_lists() {
    let folder = fresh();
    assert_eq!(said(&folder, "register show --lists @register"), "lists 0, records 0\n");
    let json = said(&folder, "register show --lists --json @register");
    assert_eq!(json, "{\"status\":0,\"used\":0,\"listed\":0,\"lists\":[]}\n");
}

/// Without the option it counts as before; beside it nothing else is counted.
#[test]
fn options_of_show() {
    let folder = touched();
    let shown = said(&folder, "register show --at 20250310080000 @register");
    let actors = "actor 900123: active 4, ended 0\nactor 900124: active 2, ended 0\n";
    assert_eq!(shown, format!("{actors}slots 8, used 6, free 2\n"));
    for beside in ["--weights", "--at 20250310050000", "--weights --at 20250310050000"] {
        let done = graftspindle(&folder, &format!("register show --lists {beside} @register"));
        assert_eq!((done.status, done.said.as_str()), (1, ""), "{beside}");
        assert!(done.fault.contains("beside --lists neither --at nor --weights is taken"), "{}", done.fault);
    }
    let help = said(&folder, "register show --help");
    assert!(help.contains("[--lists] R") && help.contains("--lists "), "{help}");
    assert!(said(&folder, "lookup pan --help").contains("which list touched the account"));
}

/// A provider's copy says the same as the register.
#[test]
fn copy() {
    let folder = fresh();
    said(&folder, "register new --slots 8 @copy");
    for (list, number, received) in [(0..3, "01", "20250310050000"), (1..5, "02", "20250310070000")] {
        import(&folder, &numbered(&lines(list), number), "incremental", received);
        said(&folder, "update --copy @copy --mode incremental @hgv @hgc");
    }
    assert_eq!(folder.read("copy"), folder.read("register"));
    assert_eq!(said(&folder, "register show --lists @copy"), said(&folder, "register show --lists @register"));
}

/// A register of so many slots that are their records alone, of which the first is used.
fn from_before(slots: usize) -> Vec<u8> {
    let mut register = sample::line(0).into_bytes();
    register.resize(RECORD * slots, 0);
    register
}

const COMMANDS: [&str; 7] = [
    IMPORT,
    "lookup pan --register @register 1",
    "lookup plate --register @register GS0000 DE",
    "register show @register",
    "register list @register",
    "register check @register",
    "register grow --slots 20 @register",
];

const UPDATE: &str = "update --copy @register --mode full @hgv @hgc";

/// What is said beside the sentence of 23, of the same bytes by each command; nothing is changed.
fn assert_out_of_order(folder: &Folder, line: &str) -> String {
    let before = folder.all();
    let done = graftspindle(folder, line);
    assert_eq!((done.status, done.said.as_str()), (23, ""), "{line}: {}", done.fault);
    assert!(done.fault.contains(&folder.text("register")) && done.fault.lines().count() == 1, "{}", done.fault);
    assert!(folder.all() == before, "{line}");
    done.fault
}

#[test]
fn register_from_before_the_stamp() {
    for (slots, told) in [(1, "1 slot"), (8, "8 slots"), (20, "20 slots"), (22, "22 slots"), (8192, "8192 slots")] {
        let folder = ready();
        folder.write("register", &from_before(slots));
        let old = format!("; its length is that of {told} of 128 bytes, from before the stamp, ");
        let new = |what: &str| format!("begin a new {what} (graftspindle register new --slots {slots}) with ");
        for line in COMMANDS {
            let fault = assert_out_of_order(&folder, line);
            assert!(fault.contains(&old) && fault.contains(&new("register")), "{fault}");
            assert!(fault.ends_with("with a full list from each provider\n"), "{fault}");
        }
        let fault = assert_out_of_order(&folder, UPDATE);
        assert!(fault.contains(&old) && fault.contains(&new("copy")), "{fault}");
        assert!(fault.ends_with("with the next full list and its HGC\n"), "{fault}");
    }
}

/// The way that the refusal names, to its end.
#[test]
fn way_on() {
    let folder = ready();
    folder.write("register", &from_before(8));
    assert_out_of_order(&folder, IMPORT);
    std::fs::rename(folder.path("register"), folder.path("old")).expect("it is there");
    said(&folder, "register new --slots 8 @register");
    import(&folder, &sample::hgv(4), "full", "20250310050000");
    assert_eq!(
        stamp_of(&folder, "lookup plate --register @register GS0003 DE"),
        "HGV9001232025031001, received 20250310050000"
    );
}

/// Other lengths, and damage of another kind, say nothing of it.
#[test]
fn no_word_of_the_stamp() {
    let wrong = |register: Vec<u8>| {
        let folder = ready();
        folder.write("register", &register);
        for line in COMMANDS.into_iter().chain([UPDATE]) {
            let fault = assert_out_of_order(&folder, line);
            assert!(!fault.contains("stamp") && !fault.contains("register new"), "{fault}");
        }
    };
    wrong(b"1".to_vec());
    wrong(vec![0; RECORD - 1]);
    wrong(vec![0; RECORD + 1]);
    wrong(vec![b'0'; SLOT]);
    wrong(from_before(21));
    wrong(vec![0; RECORD * 8193]);
    wrong(vec![0; SLOT * 8193]);
    let mut damaged = sample::slot(sample::line(0));
    damaged[SLOT - 1] = b'1';
    wrong(damaged);
}

/// As JSON, and in the journal.
#[test]
fn register_from_before_as_json() {
    let folder = ready();
    folder.write("register", &from_before(8));
    let done = graftspindle(&folder, &IMPORT.replace("--hgc", "--json --journal @journal --hgc"));
    assert!(done.status == 23 && done.said.starts_with("{\"status\":23,\"words\":\""), "{}", done.said);
    let journal = String::from_utf8(folder.read("journal")).expect("UTF-8");
    for told in [done.said, journal] {
        assert!(told.contains("8 slots of 128 bytes, from before the stamp"), "{told}");
    }
}
