//! No input is read beyond the largest that can be in form, and one byte.

use crate::common::*;
use graftspindle::sizes::*;
use graftspindle::{raw, read_back, rows_in_form, Number, Register};
use graftspindle_checks::sample;
use std::process::Command;
use std::time::{Duration, Instant};

/// In 400 MB of memory and without an end of the file.
fn assert_refused_at_once(folder: &Folder, line: &str, status: i32) {
    let mut command = Command::new("sh");
    command.args(["-c", "ulimit -v 400000; exec timeout 20 \"$0\" \"$@\"", program()]);
    let began = Instant::now();
    let done = ran(command.args(words(folder, line)).output().expect("a shell"));
    assert_eq!(done.status, status, "{line}: {}", done.fault);
    assert!(began.elapsed() < Duration::from_secs(10), "{line}");
}

#[test]
fn files_without_an_end() {
    let folder = ready();
    for (name, status) in [("@hgv", 25), ("@rows", 24)] {
        assert_refused_at_once(&folder, &IMPORT.replace(name, "/dev/zero"), status);
    }
    assert_refused_at_once(&folder, "explain /dev/zero", 25);
    assert_refused_at_once(&folder, "read-back /dev/zero @hgc", 25);
    assert_refused_at_once(&folder, "read-back @hgv /dev/zero", 52);
    assert_refused_at_once(&folder, "update --copy @register --mode full /dev/zero @hgc", 25);
    assert_refused_at_once(&folder, "issuers from-ait --issuers @fresh /dev/zero", 1);
    let large = std::fs::File::create(folder.path("large")).expect("a file");
    large.set_len(1 << 33).expect("a file with holes");
    assert_refused_at_once(&folder, &IMPORT.replace("@register", "@large"), 23);
    assert_refused_at_once(&folder, "register show @large", 23);
    assert_refused_at_once(&folder, "sweep @large", 23);
    assert_refused_at_once(&folder, "sweep --dry-run @large", 23);
    assert_refused_at_once(&folder, &IMPORT.replace("@hgc", "@large"), 1);
}

/// The sizes that reading goes by are the proved functions' own: the largest is in form, and one part more is not.
#[test]
fn largest_that_can_be_in_form() {
    let import = |hgv: &[u8]| {
        let (mut register, mut hgc) = (vec![0; REGISTER_MOST], vec![0; HGC_MOST]);
        raw::import(1, sample::RECEPTION, 0, &mut register, &sample::row(), hgv, &mut hgc)
    };
    let (most, more) = (sample::hgv(LINES_MOST), sample::hgv(LINES_MOST + 1));
    assert_eq!((most.len(), import(&most).number), (HGV_MOST, 0));
    assert_eq!((more.len(), import(&more).number), (HGV_MOST + LINE, Number::HgvLength.number()));
    let faulty: Vec<String> = (0..LINES_MOST).map(sample::faulty_line).collect();
    let done = import(&sample::hgv_of(&faulty));
    assert_eq!((done.number, done.length), (0, HGC_MOST as u64));
    assert_eq!(Register::free(SLOTS_MOST).map(|register| register.bytes().len()), Ok(REGISTER_MOST));
    assert_eq!(Register::free(SLOTS_MOST + 1), Err(Number::Order));
    assert_eq!(rows_in_form(&sample::row().repeat(ROWS_MOST)), Ok(()));
    assert_eq!(rows_in_form(&sample::row().repeat(ROWS_MOST + 1)), Err(Number::Rows));
    assert_eq!(sample::row().len(), ROW);
    assert_eq!(read_back(&sample::hgv(0), &[]), Err(Number::Hgc));
}
