//! The exit status is the definition's number, and one line says it in words; nothing is changed.

use crate::common::*;
use graftspindle::sizes::SLOT;
use graftspindle::{raw, List, Mode, Number, Reason, Register, Verdict, NO_LIST};
use graftspindle_checks::sample;

fn words_of(number: u64) -> &'static str {
    Number::try_from(number).expect("a number of the definition").words()
}

/// An import that is answered with the number, and one line on standard error.
fn assert_refused(folder: &Folder, line: &str, number: u64) {
    let before = folder.all();
    let done = graftspindle(folder, line);
    assert_eq!(done.status, number as i32, "{line}: {}", done.fault);
    let head = format!("graftspindle: {number}: {}", words_of(number));
    assert!(done.fault.starts_with(&head) && done.fault.lines().count() == 1, "{}", done.fault);
    assert_eq!(done.said, "");
    assert!(folder.all() == before, "{line}");
}

/// The sample's file with one field changed.
fn with(from: usize, field: &[u8]) -> Vec<u8> {
    let mut hgv = sample::hgv(2);
    hgv[from - 1..from - 1 + field.len()].copy_from_slice(field);
    hgv
}

#[test]
fn stops_of_the_hgv() {
    let footer = 128 + 2 * 128 + 1;
    let wrong: [(u64, Vec<u8>); 8] = [
        (25, sample::hgv(2)[1..].to_vec()),
        (26, with(2, b"X")),
        (27, with(95, b"500001")),
        (29, with(8, b"000003")),
        (30, with(66, b"000000000000003")),
        (31, with(footer, b"3")),
        (32, with(129, b"2")),
        (25, Vec::new()),
    ];
    for (number, hgv) in wrong {
        let folder = ready();
        folder.write("hgv", &hgv);
        assert_refused(&folder, IMPORT, number);
    }
}

#[test]
fn stops_of_the_rest() {
    let folder = ready();
    assert_refused(&folder, &IMPORT.replace("20250310050000", "20250230050000"), 22);
    assert_refused(&folder, &IMPORT.replace("20250310050000", "now"), 22);
    folder.write("rows", b"979900        061690012X");
    assert_refused(&folder, IMPORT, 24);
    folder.write("rows", b"979900        0616900124");
    assert_refused(&folder, IMPORT, 29);
    let folder = ready();
    folder.write("hgv", &with(95, b"220001"));
    assert_refused(&folder, &IMPORT.replace("incremental", "full"), 28);
    folder.write("register", &folder.read("register")[..SLOT]);
    folder.write("hgv", &sample::hgv(2));
    assert_refused(&folder, IMPORT, 33);
    folder.write("register", &sample::slots((0..4).map(sample::line)));
    folder.write("hgv", &sample::hgv(1));
    assert_refused(&folder, &IMPORT.replace("incremental", "full"), 35);
    folder.write("register", b"1");
    assert_refused(&folder, IMPORT, 23);
}

/// There is no register yet that could be out of order.
#[test]
fn more_slots_than_any_register_has() {
    let folder = ready();
    let before = folder.all();
    for slots in ["8193", "65536", "99999999999"] {
        let done = graftspindle(&folder, &format!("register new --slots {slots} @fresh"));
        assert_eq!(done.status, 1);
        assert!(done.fault.contains("0 to 8192") && !done.fault.contains("in order"), "{}", done.fault);
        assert!(folder.all() == before);
    }
}

/// The command gives a mode of the two, room for every block and a number for every slot: 21, 34, 36, 53 and 63 only the functions
/// can answer.
#[test]
fn numbers_that_the_command_cannot_get() {
    let (rows, hgv) = (sample::row(), sample::hgv(1));
    let import =
        |mode, hgc: &mut [u8]| raw::import(mode, sample::RECEPTION, 0, &mut [0; SLOT], &rows, &hgv, hgc).number;
    assert_eq!(import(3, &mut []), 21);
    assert_eq!(raw::update(0, 0, &mut [0; SLOT], &hgv, &[]).number, 21);
    assert_eq!(import(1, &mut [0; 173]), 34);
    let by_index = |index: &mut [u16]| {
        let (mut register, mut hgc) = ([0; SLOT], [0; 174]);
        raw::import_indexed(1, sample::RECEPTION, 0, &mut register, &rows, &hgv, &mut hgc, index).number
    };
    assert_eq!((by_index(&mut []), by_index(&mut [7])), (36, 0));
    let mut hgc = [0; 174];
    assert_eq!(import(1, &mut hgc), 0);
    assert_eq!(raw::read_back(&hgv, &hgc, &mut []).number, 53);
    assert_eq!(graftspindle::read_back(&hgv, &[]), Err(Number::Hgc));
    let list = List {
        version: 120001,
        sender: b"900123",
        date: b"20250310",
        number: 1,
        previous: NO_LIST,
        creation: b"20250310040000",
        rows: &rows,
        accounts: b"",
    };
    assert_eq!(raw::write(&list, &mut [0; 191]).number, 63);
    assert_eq!(raw::write(&list, &mut [0; 192]).number, 0);
}

#[test]
fn every_number_has_words_of_its_own() {
    let numbers: Vec<u64> = (21..=36).chain(40..=42).chain(51..=53).chain(61..=63).collect();
    let mut all: Vec<&str> = numbers.iter().map(|&number| words_of(number)).collect();
    all.sort();
    all.dedup();
    assert_eq!(all.len(), numbers.len());
    let known = |number: &u64| Number::try_from(*number).is_ok();
    assert_eq!((0..1000).filter(known).collect::<Vec<u64>>(), numbers);
    assert!(Number::try_from(20).unwrap_err().to_string().contains("does not have"));
    let reasons = [0, 1, 2, 3, 4, 5, 6, 8, 9, 12];
    assert_eq!((0..=u8::MAX).filter(|&byte| Verdict::try_from(byte).is_ok()).collect::<Vec<u8>>(), reasons);
    assert!(Verdict::try_from(7).unwrap_err().to_string().contains("does not have"));
}

/// What a service shows of a refusal, a verdict and a mode.
#[test]
fn numbers_as_they_are_shown() {
    assert_eq!(Number::Order.to_string(), "23: the register or copy is not in order");
    assert_eq!(Reason::Duplicate.to_string(), "01: duplicate entry");
    assert_eq!(Verdict::Rejected(Reason::Miscellaneous).to_string(), "rejected 12: miscellaneous");
    assert_eq!(Verdict::Taken.to_string(), "taken");
    assert_eq!((Mode::Incremental.number(), Mode::Full.number()), (1, 2));
    let errors: [Box<dyn std::error::Error>; 2] = [Box::new(Number::Key), Box::new(Reason::Luhn)];
    assert_eq!(
        errors.map(|error| error.to_string()),
        ["40: the key breaks its form", "02: PAN number not valid (Luhn code)"]
    );
}

#[test]
fn registers_of_any_size_are_judged() {
    assert_eq!(Register::free(8192).map(|register| register.slots().count()), Ok(8192));
    for slots in [8193, 65_536, usize::MAX] {
        assert_eq!(Register::free(slots), Err(Number::Order));
    }
}

#[test]
fn faults_of_the_command_line() {
    let folder = ready();
    for line in [
        "",
        "export",
        "lookup",
        "lookup pan @register",
        "lookup pan --register @register",
        "lookup pan --register @register 1 2",
        "lookup pan --register @register --register @register 1",
        "lookup pan --register",
        "lookup pan --regster @register 1",
        "register grow --slots --wait 1 @register",
        "lookup pan -r @register 1",
        "lookup pan --register @register -x",
        "register new --slots x @fresh",
        "register new --slots -1 @fresh",
        "register new --slots 99999999999 @fresh",
        "read-back @hgv",
        &IMPORT.replace("incremental", "both"),
        "lookup plate --register @register Ł1 NO",
        "write",
        "write --template @hgv",
        "write --template --sender 900123",
        "write --template --template",
        "write --template=yes",
        "sweep",
        "sweep --at @register",
        "sweep @register @register",
        "sweep --dry-run=yes @register",
        "sweep --plain @register",
        "update --plain --copy @copy --mode full @hgv @hgc",
        &IMPORT.replace(" --mode", " --plain=yes --mode"),
        &IMPORT.replace(" --mode", " --plain --plain --mode"),
    ] {
        let before = folder.all();
        let done = graftspindle(&folder, line);
        assert_eq!((done.status, done.said.as_str()), (1, ""), "{line}");
        assert!(done.fault.starts_with("graftspindle: 1: ") && done.fault.lines().count() == 1, "{}", done.fault);
        assert!(folder.all() == before);
    }
}

#[test]
fn help_of_each() {
    let folder = Folder::new();
    let all = graftspindle(&folder, "--help");
    assert_eq!((all.status, all.fault.as_str()), (0, ""));
    let usages: Vec<&str> = all.said.lines().filter(|line| line.starts_with("  graftspindle ")).collect();
    assert_eq!(usages.len(), 19);
    for usage in usages {
        let plain = |word: &&str| word.chars().all(|c| c.is_ascii_lowercase() || c == '-') && !word.starts_with("--");
        let name: Vec<&str> = usage.split_whitespace().skip(1).take_while(plain).collect();
        let help = graftspindle(&folder, &format!("{} --help", name.join(" ")));
        assert_eq!((help.status, help.fault.as_str()), (0, ""), "{name:?}");
        let usages = help.said.lines().take_while(|line| !line.is_empty()).collect::<Vec<&str>>();
        assert!(usages.contains(&usage.trim_start()) && help.said.contains("Exit status"), "{usage}");
    }
}
