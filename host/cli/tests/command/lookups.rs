//! `lookup` and `register` on a small register.

use crate::common::*;
use graftspindle::sizes::SLOT;
use graftspindle_checks::plain::words::is_real_time;
use graftspindle_checks::sample;
use graftspindle_cli::command::clock;

fn filled() -> Folder {
    let folder = ready();
    assert_eq!(graftspindle(&folder, IMPORT).status, 0);
    folder
}

#[test]
fn by_pan() {
    let folder = filled();
    let pan = sample::pan(2);
    let done = graftspindle(&folder, &format!("lookup pan --register @register {pan}"));
    assert_eq!(done.status, 0);
    let asked = format!("slot 2: actor 900123, PAN {pan}, plate GS0002 DE, end 00000000000000");
    let stamp = "list HGV9001232025031001, received 20250310050000";
    assert_eq!(done.said, format!("{asked}, {stamp}\n{}", sample::line(2)));
    let numbers = [("0", 41), ("97990012000000289", 41), ("12345678901234567890", 40), ("97 99", 40), ("", 40)];
    for (pan, number) in numbers {
        let line = "lookup pan --register @register";
        let mut given = words(&folder, line);
        given.push(pan.to_string());
        let done = std::process::Command::new(program()).args(given).output().expect("it runs");
        assert_eq!(done.status.code(), Some(number), "{pan}");
    }
}

#[test]
fn by_plate() {
    let folder = filled();
    let status = |line: &str| graftspindle(&folder, &format!("lookup plate --register @register {line}")).status;
    assert_eq!(status("GS0001 DE"), 0);
    assert_eq!(status("--at 20250310050000 GS0001 DE"), 0);
    assert_eq!(status("--at 2025 GS0001 DE"), 22);
    assert_eq!(status("gs0001 DE"), 41);
    assert_eq!(status("GS0001 SE"), 41);
    assert_eq!(status("GS0001 D"), 40);
    assert_eq!(status("ö DE"), 40);
    let twice = [sample::line(1), sample::line(2).replace("GS0002", "GS0001")];
    folder.write("register", &sample::slots(twice));
    assert_eq!(status("GS0001 DE"), 42);
    folder.write("register", b"1");
    assert_eq!(status("GS0001 DE"), 23);
}

#[test]
fn show() {
    let folder = filled();
    let mut register = folder.read("register");
    register[SLOT + 100..SLOT + 114].copy_from_slice(b"20250310050000");
    register.splice(2 * SLOT..3 * SLOT, sample::slot(sample::line(2).replacen("900123", "900124", 1)));
    folder.write("register", &register);
    let told = |time: &str| graftspindle(&folder, &format!("register show --at {time} @register")).said;
    let rest = "actor 900124: active 1, ended 0\nslots 8, used 3, free 5\n";
    assert_eq!(told("20250310045959"), format!("actor 900123: active 2, ended 0\n{rest}"));
    assert_eq!(told("20250310050000"), format!("actor 900123: active 1, ended 1\n{rest}"));
    assert_eq!(graftspindle(&folder, "register show --at 20250230000000 @register").status, 22);
}

#[test]
fn new() {
    let folder = Folder::new();
    for slots in [0, 1, 8192] {
        let name = format!("fresh{slots}");
        assert_eq!(graftspindle(&folder, &format!("register new --slots {slots} @{name}")).status, 0);
        assert_eq!(folder.read(&name), vec![0; SLOT * slots]);
        let shown = graftspindle(&folder, &format!("register show @{name}")).said;
        assert_eq!(shown, format!("slots {slots}, used 0, free {slots}\n"));
    }
}

#[test]
fn clock_of_known_moments() {
    let known: [(u64, &[u8]); 5] = [
        (0, b"19700101000000"),
        (951_782_399, b"20000228235959"),
        (951_782_400, b"20000229000000"),
        (1_741_582_800, b"20250310050000"),
        (4_107_542_400, b"21000301000000"),
    ];
    known.into_iter().for_each(|(seconds, text)| assert_eq!(clock::moment(seconds), text));
    assert!((0..200_000).all(|day| is_real_time(&clock::moment(day * 86_400 + 86_399))));
    assert!(is_real_time(&clock::now()));
}
