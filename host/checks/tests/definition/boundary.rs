//! Every declaration of `raw` called once with an answer and once with a refusal, and compared with the plain one.

use graftspindle::raw;
use graftspindle::sizes::SLOT;
use graftspindle_checks::{plain, sample};

/// Behind UTC, so that a sign that is lost shows; and the sample's reception then.
const OFFSET: i64 = -90;
const LOCAL: &[u8] = b"20250310033000";

/// A register of four slots after an import of three lines, by both.
fn imported() -> Vec<u8> {
    let (mut register, mut hgc) = (vec![0; 4 * SLOT], vec![7; 300]);
    let (mut other, mut told) = (register.clone(), hgc.clone());
    let (rows, hgv) = (sample::row(), sample::hgv(3));
    let done = raw::import(1, sample::RECEPTION, OFFSET, &mut register, &rows, &hgv, &mut hgc);
    let plain = plain::import(1, sample::RECEPTION, OFFSET, &mut other, &rows, &hgv, &mut told);
    assert_eq!((done.number, done.taken, done.rejected, done.length), (0, 3, 0, 174));
    assert_eq!((plain.number, plain.taken, plain.rejected, plain.length), (0, 3, 0, 174));
    assert!(register == other && hgc == told && &hgc[32..46] == LOCAL);
    register
}

/// The HGC of the same import.
fn confirmed() -> Vec<u8> {
    let (mut register, mut hgc) = (vec![0; 4 * SLOT], vec![7; 174]);
    raw::import(1, sample::RECEPTION, OFFSET, &mut register, &sample::row(), &sample::hgv(3), &mut hgc);
    hgc
}

#[test]
fn a_stop_writes_nothing() {
    for (mode, offset, number) in
        [(3, 0, 21), (3, i64::MAX, 21), (1, 841, 22), (1, -721, 22), (1, i64::MIN, 22), (1, i64::MAX, 22), (1, 840, 33)]
    {
        let (mut register, mut hgc) = (vec![0; SLOT], vec![7; 173]);
        let done =
            raw::import(mode, sample::RECEPTION, offset, &mut register, &sample::row(), &sample::hgv(3), &mut hgc);
        assert_eq!((done.number, done.taken, done.rejected, done.length), (number, 0, 0, 0));
        assert!(register == vec![0; SLOT] && hgc == vec![7; 173]);
    }
}

/// An index beside whose ends nothing is written: its numbers, with one more on each side.
fn import_by_index(numbers: usize, register: &mut [u8], hgc: &mut [u8]) -> raw::Imported {
    let mut index = vec![0xBEEF; numbers + 2];
    let (rows, hgv, lent) = (sample::row(), sample::hgv(3), &mut index[1..numbers + 1]);
    let done = raw::import_indexed(1, sample::RECEPTION, OFFSET, register, &rows, &hgv, hgc, lent);
    assert_eq!((index[0], index[numbers + 1]), (0xBEEF, 0xBEEF));
    done
}

/// A length counts numbers of 16 bits, not bytes: three for four slots are too few, though they have six bytes.
#[test]
fn import_indexed() {
    let (mut other, mut told) = (vec![0; 4 * SLOT], vec![7; 300]);
    let (rows, hgv) = (sample::row(), sample::hgv(3));
    let plain =
        plain::import_indexed(1, sample::RECEPTION, OFFSET, &mut other, &rows, &hgv, &mut told, &mut [9, 9, 9, 9]);
    assert_eq!((plain.number, plain.taken, plain.rejected, plain.length), (0, 3, 0, 174));
    for numbers in [4, 5, 100, 70_000] {
        let (mut register, mut hgc) = (vec![0; 4 * SLOT], vec![7; 300]);
        assert_eq!(import_by_index(numbers, &mut register, &mut hgc), plain);
        assert!(register == other && hgc == told && register == imported() && &hgc[32..46] == LOCAL);
    }
    for numbers in [0, 1, 2, 3] {
        let (mut register, mut hgc) = (vec![0; 4 * SLOT], vec![7; 300]);
        let done = import_by_index(numbers, &mut register, &mut hgc);
        assert_eq!((done.number, done.taken, done.rejected, done.length), (36, 0, 0, 0));
        assert!(register == vec![0; 4 * SLOT] && hgc == vec![7; 300]);
    }
}

#[test]
fn by_pan() {
    let register = imported();
    for i in 0..4 {
        let pan = format!("{:<19}", sample::pan(i));
        let found = raw::by_pan(&register, pan.as_bytes());
        assert_eq!(found, plain::by_pan(&register, pan.as_bytes()));
        assert_eq!(found, if i < 3 { (0, i * SLOT..i * SLOT + SLOT) } else { (41, 0..0) });
    }
}

#[test]
fn by_plate() {
    let register = imported();
    for i in 0..4 {
        let plate = sample::plate(i);
        let found = raw::by_plate(&register, plate.as_bytes(), b"DE ", sample::RECEPTION);
        assert_eq!(found, plain::by_plate(&register, plate.as_bytes(), b"DE ", sample::RECEPTION));
        assert_eq!(found, if i < 3 { (0, i * SLOT..i * SLOT + SLOT) } else { (41, 0..0) });
    }
}

#[test]
fn read_back() {
    let (hgv, hgc) = (sample::hgv(3), confirmed());
    let (mut verdicts, mut told) = (vec![7; 5], vec![7; 5]);
    let done = raw::read_back(&hgv, &hgc, &mut verdicts);
    assert_eq!(done, plain::read_back(&hgv, &hgc, &mut told));
    assert_eq!((done.number, done.taken, done.rejected), (0, 3, 0));
    assert!(verdicts == [0, 0, 0, 7, 7] && verdicts == told);
    let refused = raw::read_back(&hgv, &hgc[1..], &mut verdicts);
    assert_eq!((refused.number, refused.taken, refused.rejected), (52, 0, 0));
    assert_eq!(raw::read_back(&hgv, &hgc, &mut verdicts[..2]).number, 53);
}

#[test]
fn update() {
    let (hgv, hgc, mut copy) = (sample::hgv(3), confirmed(), vec![0; 4 * SLOT]);
    for (mode, offset, number) in
        [(3, 0, 21), (0, i64::MIN, 21), (1, 841, 52), (1, -721, 52), (2, i64::MIN, 52), (2, i64::MAX, 52)]
    {
        let refused = raw::update(mode, offset, &mut copy, &hgv, &hgc);
        assert_eq!((refused.number, refused.taken, refused.rejected), (number, 0, 0));
        assert!(copy == vec![0; 4 * SLOT]);
    }
    let done = raw::update(2, OFFSET, &mut copy, &hgv, &hgc);
    assert_eq!((done.number, done.taken, done.rejected), (0, 3, 0));
    assert!(copy == imported());
}

#[test]
fn write() {
    let (rows, accounts) = (sample::row(), sample::accounts(3));
    let list = sample::list(&rows, &accounts);
    let (mut file, mut other) = (vec![7; 600], vec![7; 600]);
    let done = raw::write(&list, &mut file);
    assert_eq!(done, plain::write(&list, &mut other));
    assert_eq!((done.number, done.length), (0, 576));
    assert!(file == other && file[..576] == sample::hgv(3) && file[576..] == [7; 24]);
    let mut short = vec![7; 575];
    let refused = raw::write(&list, &mut short);
    assert_eq!((refused.number, refused.length), (63, 0));
    assert!(short == [7; 575]);
}

#[test]
fn sweep() {
    let swept = |register: &[u8], time: &[u8]| {
        let (mut after, mut other) = (register.to_vec(), register.to_vec());
        let done = raw::sweep(&mut after, time);
        assert_eq!(done, plain::sweep(&mut other, time));
        assert!(after == other);
        (done.number, done.removed, after)
    };
    let mut register = imported();
    register[SLOT + 100..SLOT + 114].copy_from_slice(sample::RECEPTION);
    let left = [&register[..SLOT], &register[2 * SLOT..], &[0; SLOT]].concat();
    assert_eq!(swept(&register, sample::RECEPTION), (0, 1, left));
    assert_eq!(swept(&register, &sample::RECEPTION[1..]), (22, 0, register.clone()));
    assert_eq!(swept(&register[1..], sample::RECEPTION), (23, 0, register[1..].to_vec()));
}

#[test]
fn seconds() {
    let told = |time: &[u8]| {
        let done = raw::seconds(time);
        assert_eq!(done, plain::seconds(time));
        (done.number, done.seconds)
    };
    assert_eq!(told(b"00010101000000"), (0, 0));
    assert_eq!(told(sample::RECEPTION), (0, 63_877_179_600));
    assert_eq!(told(b"99991231235959"), (0, 315_537_897_599));
    assert_eq!(told(b"20250310240000"), (22, 0));
    assert_eq!(told(b""), (22, 0));
}

/// The linked libraries have the form that is declared; of another one a call says so and which command makes them anew.
#[test]
fn revision() {
    assert_eq!((raw::revision(), raw::REVISION), (2, 2));
    raw::must_be_declared(2);
    for other in [0, 1, 3] {
        let fault = std::panic::catch_unwind(|| raw::must_be_declared(other)).expect_err("another form");
        let words = fault.downcast_ref::<String>().expect("a text");
        let told = format!("have revision {other} of what Rust calls, and revision 2 is declared");
        assert!(words.contains(&told) && words.contains("host/build"), "{words}");
    }
}

/// The largest files and registers, on a thread with a stack of 128 KiB.
#[test]
fn small_stack() {
    let calls = || {
        let (hgv, rows) = (sample::hgv(8192), sample::row());
        let (mut register, mut copy, mut hgc, mut verdicts) =
            (vec![0; 8192 * SLOT], vec![0; 8192 * SLOT], vec![0; 174], vec![1; 8192]);
        let taken = raw::import(2, sample::RECEPTION, OFFSET, &mut register, &rows, &hgv, &mut hgc).taken;
        let again = raw::import(1, sample::RECEPTION, OFFSET, &mut register, &rows, &hgv, &mut hgc).taken;
        let read = raw::read_back(&hgv, &hgc, &mut verdicts).taken;
        let updated = raw::update(1, OFFSET, &mut copy, &hgv, &hgc).taken;
        let swept = raw::sweep(&mut copy, sample::RECEPTION).removed;
        (taken, again, read, updated, swept, copy == register)
    };
    let thread = std::thread::Builder::new().stack_size(128 * 1024).spawn(calls);
    assert_eq!(thread.expect("a thread").join().expect("it ends"), (8192, 8192, 8192, 8192, 0, true));
}

/// What the indexed import is given, as `host/stack` says that it needs.
const STACK_BY_INDEX: usize = 128 * 1024;

/// The largest file by an index, into a free register and into a full one, in both modes.
#[test]
fn small_stack_by_index() {
    let calls = || {
        let (hgv, rows, mut index) = (sample::hgv(8192), sample::row(), vec![u16::MAX; 8192]);
        let (mut register, mut hgc) = (vec![0; 8192 * SLOT], vec![0; 174]);
        let mut import = |mode| {
            raw::import_indexed(mode, sample::RECEPTION, OFFSET, &mut register, &rows, &hgv, &mut hgc, &mut index).taken
        };
        [import(1), import(1), import(2)]
    };
    let thread = std::thread::Builder::new().stack_size(STACK_BY_INDEX).spawn(calls);
    assert_eq!(thread.expect("a thread").join().expect("it ends"), [8192; 3]);
}

/// The largest lists on a stack of 128 KiB: one that is written, and one whose last PAN is its first.
#[test]
fn small_stack_for_writing() {
    let calls = || {
        let (rows, mut accounts) = (sample::row().repeat(64), sample::accounts(8192));
        let mut file = vec![0; 192 + 128 * 8192];
        let written = raw::write(&sample::list(&rows, &accounts), &mut file);
        accounts.copy_within(..19, 8191 * 100);
        let refused = raw::write(&sample::list(&rows, &accounts), &mut file);
        (written.number, refused.number, file == sample::hgv(8192))
    };
    let thread = std::thread::Builder::new().stack_size(128 * 1024).spawn(calls);
    assert_eq!(thread.expect("a thread").join().expect("it ends"), (0, 62, true));
}
