//! The shorthand of the cases.

use graftspindle::raw::{Counted, Imported, List, Swept, Written};
pub use graftspindle_checks::engines::{indexed, Engine, ENGINES};
use graftspindle_checks::generate::{Case, Import};
use graftspindle_checks::plain::line::{breaks_l10, record_rules_hold};
use graftspindle_checks::plain::register::SLOT;
use graftspindle_checks::sample;
pub use graftspindle_checks::sample::{slot, slots};
use std::collections::BTreeMap;
use std::fmt::Debug;

/// So many inputs are drawn from the generator.
pub const SEEDS: u64 = 100_000;

pub const R0: &[u8] = b"20250310050000";
pub const ROW0: &[u8] = b"97990012      0816900123";
pub const LINE0: &[u8] = b"1900123      9799001200000002   ABC123    NO 12  30C00B000503\
    30C00B001222070321Euro6 02N   004000000000000000000003000000000000\n";
pub const PAN2: &[u8] = b"9799001200000010   ";

/// LINE0[a-b:=x].
pub fn with(line: &[u8], from: usize, field: &[u8]) -> Vec<u8> {
    let mut changed = line.to_vec();
    changed[from - 1..from - 1 + field.len()].copy_from_slice(field);
    changed
}

pub fn x() -> Vec<u8> {
    LINE0.to_vec()
}

pub fn y() -> Vec<u8> {
    with(LINE0, 14, PAN2)
}

/// X with another plate.
pub fn x_other() -> Vec<u8> {
    with(LINE0, 33, b"XYZ123")
}

pub fn bad() -> Vec<u8> {
    with(LINE0, 80, b"Euro9 ")
}

/// Whether nothing but a limit of weight keeps it from being taken as a line: a record may be so, and a line taken before the
/// limits were amended.
pub fn over_limit(line: &[u8]) -> bool {
    breaks_l10(line) && record_rules_hold(line)
}

pub fn free(k: usize) -> Vec<u8> {
    vec![0; SLOT * k]
}

/// The used slots of an actor, in order, then free ones: what his copy must be.
pub fn copy_expected(register: &[u8], actor: &[u8]) -> Vec<u8> {
    let own = register.chunks(SLOT).filter(|slot| slot[0] == b'1' && &slot[1..7] == actor);
    let mut expected: Vec<u8> = own.flatten().copied().collect();
    expected.resize(register.len(), 0);
    expected
}

pub fn footer() -> Vec<u8> {
    [&b"2"[..], &[b'0'; 62], b"\n"].concat()
}

pub fn hgv(lines: &[Vec<u8>]) -> Vec<u8> {
    let count = format!("{:015}", lines.len());
    let parts: [&[u8]; 9] = [
        b"0900123000002HGV9001232025031001HGV0000000000000000",
        &[b'0'; 14],
        count.as_bytes(),
        b"20250310040000",
        b"120001",
        &[b'0'; 27],
        b"\n",
        &lines.concat(),
        &footer(),
    ];
    parts.concat()
}

/// A confirmation of `hgv(..)`, received at R0.
pub fn hgc(taken: usize, rejected: &[(&[u8], &str)]) -> Vec<u8> {
    let counts = format!("{taken:015}{:015}", rejected.len());
    let acceptance: &[u8] = if rejected.is_empty() { b"00\n" } else { b"01\n" };
    let mut hgc =
        [&b"0000002900123HGV9001232025031001"[..], R0, counts.as_bytes(), b"120001", &[b'0'; 25], acceptance].concat();
    for (line, reason) in rejected {
        hgc.extend([&b"1"[..], &line[1..127], reason.as_bytes(), b"\n"].concat());
    }
    hgc.extend(footer());
    hgc
}

#[derive(Debug, PartialEq)]
pub struct Outcome {
    pub answer: Imported,
    pub register: Vec<u8>,
    /// The first `length` bytes of the buffer.
    pub hgc: Vec<u8>,
}

/// What is handed over beside a register, and the length of the HGC's buffer.
#[derive(Clone, Copy)]
pub struct Given<'a> {
    pub mode: u64,
    pub reception: &'a [u8],
    pub offset: i64,
    pub rows: &'a [u8],
    pub hgv: &'a [u8],
    pub room: usize,
}

impl<'a> Given<'a> {
    pub fn of_case(case: &'a Case) -> Given<'a> {
        let Case { mode, reception, offset, rows, hgv, hgc_len, .. } = case;
        Given { mode: *mode, reception, offset: *offset, rows, hgv, room: *hgc_len }
    }

    pub fn of_import(import: &'a Import) -> Given<'a> {
        let Import { mode, reception, offset, rows, hgv, hgc_len } = import;
        Given { mode: *mode, reception, offset: *offset, rows, hgv, room: *hgc_len }
    }
}

/// An import whose HGC shows UTC.
pub fn run(
    engine: &Engine,
    mode: u64,
    reception: &[u8],
    register: &[u8],
    rows: &[u8],
    hgv: &[u8],
    hgc_len: usize,
) -> Outcome {
    run_given(engine, register, &Given { mode, reception, offset: 0, rows, hgv, room: hgc_len })
}

/// Runs an import into a buffer of EE and checks what every import owes its lent blocks.
pub fn run_given(engine: &Engine, register: &[u8], given: &Given) -> Outcome {
    let Given { mode, reception, offset, rows, hgv, room } = *given;
    let import =
        |after: &mut [u8], buffer: &mut [u8]| (engine.import)(mode, reception, offset, after, rows, hgv, buffer);
    owed(engine.name, register, room, import)
}

/// The same by an index. Of its numbers nothing is owed; those around it stay.
pub fn run_indexed(engine: &Engine, register: &[u8], given: &Given, index: &mut [u16]) -> Outcome {
    const AROUND: u16 = 0xBEEF;
    let Given { mode, reception, offset, rows, hgv, room } = *given;
    let mut lent = [&[AROUND], &index[..], &[AROUND]].concat();
    let end = lent.len() - 1;
    let outcome = owed(engine.name, register, room, |after, buffer| {
        (engine.import_indexed)(mode, reception, offset, after, rows, hgv, buffer, &mut lent[1..end])
    });
    assert_eq!((lent[0], lent[end]), (AROUND, AROUND), "{}: beside the index", engine.name);
    index.copy_from_slice(&lent[1..end]);
    outcome
}

fn owed(name: &str, register: &[u8], room: usize, import: impl FnOnce(&mut [u8], &mut [u8]) -> Imported) -> Outcome {
    let (mut after, mut buffer) = (register.to_vec(), vec![0xEE; room]);
    let answer = import(&mut after, &mut buffer);
    let length = answer.length as usize;
    assert!(buffer[length..].iter().all(|&b| b == 0xEE), "{name}: bytes beyond the HGC");
    if answer.number != 0 {
        assert_eq!(after, register, "{name}: a stop writes nothing");
        assert_eq!((answer.taken, answer.rejected, answer.length), (0, 0, 0));
    } else {
        assert_eq!(answer.length, 174 + 130 * answer.rejected);
    }
    Outcome { answer, register: after, hgc: buffer[..length].to_vec() }
}

/// Sweeps a register and checks what every sweep owes it: the answer, and the register after it.
pub fn sweep(engine: &Engine, register: &[u8], time: &[u8]) -> (Swept, Vec<u8>) {
    let mut after = register.to_vec();
    let answer = (engine.sweep)(&mut after, time);
    if answer.number != 0 || answer.removed == 0 {
        assert!(after == register, "{}: bytes are written where nothing goes", engine.name);
        assert_eq!(answer.removed, 0, "{}", engine.name);
    }
    (answer, after)
}

/// Mode 1 at R0 with ROW0 and room enough.
pub fn run_lines(engine: &Engine, register: &[u8], lines: &[Vec<u8>]) -> Outcome {
    run(engine, 1, R0, register, ROW0, &hgv(lines), 174 + 130 * lines.len())
}

/// The verdicts an outcome tells, through reading back.
pub fn verdicts(engine: &Engine, hgv: &[u8], outcome: &Outcome) -> Vec<u8> {
    assert_eq!(outcome.answer.number, 0, "{}", engine.name);
    let n = (hgv.len() - 192) / 128;
    let mut block = vec![0xEE; n + 3];
    let counted = (engine.read_back)(hgv, &outcome.hgc, &mut block);
    let Imported { taken, rejected, .. } = outcome.answer;
    assert_eq!(counted, Counted { number: 0, taken, rejected });
    assert_eq!(block.split_off(n), [0xEE; 3]);
    block
}

/// The verdicts of lines in an empty register under the rows.
pub fn verdicts_under(rows: &[u8], lines: &[Vec<u8>]) -> Vec<Vec<u8>> {
    let judge = |engine: &Engine| {
        let file = hgv(lines);
        let outcome = run(engine, 1, R0, &free(lines.len()), rows, &file, 174 + 130 * lines.len());
        verdicts(engine, &file, &outcome)
    };
    ENGINES.iter().map(judge).collect()
}

pub fn assert_verdicts(lines: &[Vec<u8>], expected: &[u8]) {
    for verdicts in verdicts_under(ROW0, lines) {
        assert_eq!(verdicts, expected);
    }
}

/// What all implementations answer: the same, in every byte.
pub fn of_all<A: PartialEq + Debug>(ask: impl Fn(&Engine) -> A) -> A {
    of_these(ENGINES.iter(), ask)
}

/// The same of those that differ in their indexed imports.
pub fn of_indexed<A: PartialEq + Debug>(ask: impl Fn(&Engine) -> A) -> A {
    of_these(indexed(), ask)
}

fn of_these<A: PartialEq + Debug>(mut engines: impl Iterator<Item = &'static Engine>, ask: impl Fn(&Engine) -> A) -> A {
    let one = engines.next().expect("an implementation");
    let first = ask(one);
    for engine in engines {
        let answer = ask(engine);
        assert!(answer == first, "{}: {answer:?}\n{}: {first:?}", engine.name, one.name);
    }
    first
}

/// The implementation of this name.
pub fn engine(name: &str) -> &'static Engine {
    ENGINES.iter().find(|engine| engine.name == name).expect("an implementation of that name")
}

pub type Counts<K> = BTreeMap<K, u64>;

pub fn count<K: Ord>(counts: &mut Counts<K>, key: K) {
    *counts.entry(key).or_insert(0) += 1;
}

/// Prints the counts; exactly the expected ones were reached, each more than by chance.
pub fn assert_reached<K: Ord + Debug>(what: &str, counts: &Counts<K>, mut expected: Vec<K>) {
    println!("{what}: {counts:?}");
    expected.sort();
    assert!(counts.keys().eq(&expected), "{what}: expected {expected:?}");
    assert!(counts.values().all(|&times| times >= 10), "{what}: hardly reached");
}

/// Writes a list into a buffer of EE and checks what is owed to it; the number, and the file.
pub fn write(engine: &Engine, list: &List, room: usize) -> (u64, Vec<u8>) {
    let mut file = vec![0xEE; room];
    let Written { number, length } = (engine.write)(list, &mut file);
    let expected = if number == 0 { 192 + 128 * (list.accounts.len() / 100) } else { 0 };
    assert_eq!(length as usize, expected, "{}: {number}", engine.name);
    let behind = file.split_off(expected);
    assert!(behind.iter().all(|&b| b == 0xEE), "{}: bytes beyond the HGV", engine.name);
    (number, file)
}

/// What the file of `hgv(..)` is written from.
pub fn list(accounts: &[u8]) -> List<'_> {
    sample::list(ROW0, accounts)
}

/// A list before it.
pub const PREVIOUS: &[u8] = b"HGV9001232025030999";

/// The accounts of X and Y.
pub fn both() -> Vec<u8> {
    [sample::account_of(&x()), sample::account_of(&y())].concat()
}

/// The number that all implementations answer, with room enough.
pub fn number_of_all(list: &List) -> u64 {
    of_all(|engine| write(engine, list, 200 + 128 * (list.accounts.len() / 100))).0
}
