//! What a refusal says beside its sentence: the file, and what can be said of it.

use crate::common::*;
use graftspindle::sizes::SLOT;
use graftspindle_checks::sample;

fn with(from: usize, field: &[u8]) -> Vec<u8> {
    let mut hgv = sample::hgv(2);
    hgv[from - 1..from - 1 + field.len()].copy_from_slice(field);
    hgv
}

#[test]
fn length_of_an_hgv() {
    let folder = ready();
    let name = folder.text("hgv");
    folder.write("hgv", &sample::hgv(2)[1..]);
    assert_says(&folder, IMPORT, 25, &[&name, "has 447 bytes", "320 or 448"]);
    folder.write("hgv", b"");
    assert_says(&folder, IMPORT, 25, &[&name, "is empty", "192 or more"]);
    folder.write("hgv", &sample::hgv(8193));
    assert_says(&folder, IMPORT, 25, &[&name, "more than 1048768 bytes"]);
    let text = String::from_utf8(sample::hgv(2)).expect("ASCII").replace('\n', "\r\n");
    folder.write("hgv", text.as_bytes());
    assert_says(&folder, IMPORT, 25, &["has 452 bytes", "CR LF in 4 places", "with LF alone", "would be right"]);
    assert_says(&folder, "read-back @hgv @hgc", 25, &["CR LF in 4 places"]);
}

#[test]
fn counts_of_an_hgv() {
    let folder = ready();
    folder.write("hgv", &with(66, b"000000000000003"));
    assert_says(&folder, IMPORT, 30, &[&folder.text("hgv"), "says 3", "has 2 lines"]);
}

#[test]
fn half_of_29() {
    let folder = ready();
    folder.write("hgv", &with(8, b"000003"));
    assert_says(&folder, IMPORT, 29, &[&folder.text("hgv"), "receiver is 000003"]);
    folder.write("hgv", &sample::hgv(2));
    folder.write("rows", b"979900        0616900124");
    assert_says(&folder, IMPORT, 29, &[&folder.text("rows"), "no row of 900123", "900124"]);
}

#[test]
fn slots_that_are_short() {
    let folder = ready();
    let one = folder.read("register")[..SLOT].to_vec();
    folder.write("register", &one);
    folder.write("hgv", &sample::hgv(4));
    assert_says(&folder, IMPORT, 33, &[&folder.text("register"), "has 1 slot", "3 more are needed", "register grow"]);
    folder.write("register", &[0; 3 * SLOT]);
    assert_says(&folder, IMPORT, 33, &["has 3 slots", "1 more is needed"]);
    folder.write("register", &[0; 8 * SLOT]);
    assert_eq!(graftspindle(&folder, IMPORT).status, 0);
    folder.write("small", &[0; 2 * SLOT]);
    let update = "update --copy @small --mode incremental @hgv @hgc";
    assert_says(&folder, update, 33, &[&folder.text("small"), "has 2 slots", "2 more are needed"]);
}

/// Even the largest register would not do: nothing more can be asked.
#[test]
fn slots_that_no_register_has() {
    let folder = ready();
    folder.write("register", &sample::slots((0..8192).map(sample::line)));
    let more: Vec<String> = (8192..8200).map(sample::line).collect();
    folder.write("hgv", &sample::hgv_of(&more));
    assert_says(&folder, IMPORT, 33, &["has 8192 slots", "no register has more"]);
}

#[test]
fn names_of_the_rest() {
    let folder = ready();
    let register = folder.text("register");
    assert_says(&folder, &IMPORT.replace("20250310050000", "20250230050000"), 22, &["20250230050000"]);
    folder.write("rows", b"979900        061690012X");
    assert_says(&folder, IMPORT, 24, &[&folder.text("rows")]);
    let folder_of = |name: &str, bytes: &[u8]| {
        let folder = ready();
        folder.write(name, bytes);
        folder
    };
    for (number, hgv) in [(26, with(2, b"X")), (31, with(385, b"3")), (32, with(129, b"2"))] {
        let folder = folder_of("hgv", &hgv);
        assert_says(&folder, IMPORT, number, &[&folder.text("hgv")]);
    }
    let folder = folder_of("hgv", &with(95, b"500001"));
    assert_says(&folder, IMPORT, 27, &[&folder.text("hgv"), "500001"]);
    let folder = folder_of("register", b"1");
    assert_says(&folder, IMPORT, 23, &[&folder.text("register")]);
    assert_says(&folder, "register show @register", 23, &[&folder.text("register")]);
    assert_says(&folder, "lookup pan --register @register 1", 23, &[&folder.text("register")]);
    let folder = ready();
    assert_says(&folder, "lookup pan --register @register 1", 41, &["PAN 1", &folder.text("register")]);
    assert_says(&folder, "lookup plate --register @register A-B DE", 40, &["A-B DE"]);
    assert_says(&folder, "read-back @hgv @hgv", 52, &[&folder.text("hgv")]);
    assert!(register.ends_with("register"));
}
