//! `read-back` and `update`.

use crate::common::*;
use graftspindle_checks::sample;

fn confirmed() -> Folder {
    let folder = ready();
    assert_eq!(graftspindle(&folder, IMPORT).status, 0);
    assert_eq!(graftspindle(&folder, "register new --slots 8 @copy").status, 0);
    folder
}

#[test]
fn read_back() {
    let folder = confirmed();
    let done = graftspindle(&folder, "read-back @hgv @hgc");
    let lines: Vec<&str> = done.said.lines().collect();
    assert_eq!((done.status, lines.len()), (0, 5));
    assert_eq!(lines[0], format!("    1  {}     GS0000      taken", sample::pan(0)));
    assert_eq!(lines[3], format!("    4  {}     GS0003      rejected 12: miscellaneous", sample::pan(3)));
    assert_eq!(lines[4], "taken 3, rejected 1");
}

#[test]
fn update() {
    let folder = confirmed();
    let done = graftspindle(&folder, "update --copy @copy --mode incremental @hgv @hgc");
    let said = "taken 3, rejected 1\nrejected 12: miscellaneous: 1\n";
    assert_eq!((done.status, done.said.as_str(), done.fault.as_str()), (0, said, ""));
    assert_eq!(folder.read("copy"), folder.read("register"));
}

#[test]
fn refusals() {
    let folder = confirmed();
    let before = folder.all();
    let status = |line: &str| graftspindle(&folder, line).status;
    assert_eq!(status("read-back @hgc @hgc"), 25);
    assert_eq!(status("read-back @hgv @hgv"), 52);
    assert_eq!(status("update --copy @copy --mode full @hgv @hgv"), 52);
    assert_eq!(status("update --copy @rows --mode full @hgv @hgc"), 23);
    assert!(folder.all() == before);
    assert_eq!(status("register new --slots 2 @small"), 0);
    assert_eq!(status("update --copy @small --mode full @hgv @hgc"), 33);
    let foreign = sample::slot(sample::line(0).replacen("900123", "900124", 1));
    folder.write("small", &foreign);
    assert_eq!(status("update --copy @small --mode full @hgv @hgc"), 51);
    assert_eq!(folder.read("small"), foreign);
}
