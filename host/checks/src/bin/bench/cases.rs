//! The calls that are timed, each with so many lines and as many slots.

use graftspindle::raw::Counted;
use graftspindle::sizes::SLOT;
use graftspindle_checks::engines::Engine;
use graftspindle_checks::kinds::{kinds, Kind};
use graftspindle_checks::{hashed, sample};

pub struct Case {
    pub name: String,
    /// Whether there is an import by an index beside it.
    pub is_import: bool,
    pub mode: u64,
    pub offset: i64,
    /// The blocks that may be written, and those that are only read.
    pub written: Vec<Vec<u8>>,
    pub read: Vec<Vec<u8>>,
    pub call: fn(&Engine, &Case, &mut [Vec<u8>]) -> [u64; 4],
    pub expected: [u64; 4],
}

type Lines = fn(usize) -> String;

/// Minutes.
const AHEAD: i64 = 60;

fn file(size: usize, line: Lines) -> Vec<u8> {
    sample::hgv_of(&(0..size).map(line).collect::<Vec<_>>())
}

fn free(size: usize) -> Vec<u8> {
    vec![0; SLOT * size]
}

fn full(size: usize) -> Vec<u8> {
    sample::slots((0..size).map(sample::line))
}

/// Every second line is faulty.
fn mixed_line(i: usize) -> String {
    if i.is_multiple_of(2) {
        sample::line(i)
    } else {
        sample::faulty_line(i)
    }
}

fn import(engine: &Engine, case: &Case, blocks: &mut [Vec<u8>]) -> [u64; 4] {
    let [register, hgc] = blocks else { unreachable!() };
    let (rows, hgv) = (&case.read[0], &case.read[1]);
    let done = (engine.import)(case.mode, sample::RECEPTION, case.offset, register, rows, hgv, hgc);
    [done.number, done.taken, done.rejected, done.length]
}

/// The same call where local time is ahead of UTC.
fn ahead(case: Case) -> Case {
    Case { name: format!("{}, offset {AHEAD}", case.name), offset: AHEAD, ..case }
}

fn imports(size: usize) -> Vec<Case> {
    let case = |kind: &Kind, mode| Case {
        name: format!("import, {}, mode {mode}", kind.name),
        is_import: true,
        mode,
        offset: 0,
        written: vec![kind.register.clone(), vec![0xAA; 174 + 130 * (kind.taken + kind.rejected)]],
        read: vec![sample::row(), kind.hgv.clone()],
        call: import,
        expected: [0, kind.taken as u64, kind.rejected as u64, 174 + 130 * kind.rejected as u64],
    };
    let kinds = kinds(size);
    let held = kinds.iter().find(|kind| kind.name == "held lines, full register").expect("a kind of that name");
    let local = ahead(case(held, 2));
    kinds.iter().flat_map(|kind| [case(kind, 1), case(kind, 2)]).chain([local]).collect()
}

fn by_pan(engine: &Engine, case: &Case, _: &mut [Vec<u8>]) -> [u64; 4] {
    let (number, part) = (engine.by_pan)(&case.read[0], &case.read[1]);
    [number, part.start as u64, part.len() as u64, 0]
}

fn by_plate(engine: &Engine, case: &Case, _: &mut [Vec<u8>]) -> [u64; 4] {
    let (number, part) = (engine.by_plate)(&case.read[0], &case.read[1], b"DE ", sample::RECEPTION);
    [number, part.start as u64, part.len() as u64, 0]
}

fn lookups(size: usize) -> Vec<Case> {
    let (start, slot) = ((SLOT * (size - 1)) as u64, SLOT as u64);
    let pan = |i| format!("{:<19}", sample::pan(i));
    let calls: [(&str, String, _, [u64; 4]); 4] = [
        ("PAN, the last record", pan(size - 1), by_pan as fn(&Engine, &Case, &mut [Vec<u8>]) -> _, [0, start, slot, 0]),
        ("PAN, none", pan(size), by_pan, [41, 0, 0, 0]),
        ("plate, the last record", sample::plate(size - 1), by_plate, [0, start, slot, 0]),
        ("plate, none", sample::plate(size), by_plate, [41, 0, 0, 0]),
    ];
    let case = |(key, text, call, expected): (&str, String, _, _)| Case {
        name: format!("lookup by {key}"),
        is_import: false,
        mode: 0,
        offset: 0,
        written: Vec::new(),
        read: vec![full(size), text.into_bytes()],
        call,
        expected,
    };
    calls.into_iter().map(case).collect()
}

/// The HGC that an import of the file into a free register writes.
fn confirmed(size: usize, hgv: &[u8]) -> Vec<u8> {
    let mut hgc = vec![0; 174 + 130 * size];
    let done = hashed::import(1, sample::RECEPTION, 0, &mut free(size), &sample::row(), hgv, &mut hgc);
    hgc.truncate(done.length as usize);
    hgc
}

fn counted(done: Counted) -> [u64; 4] {
    [done.number, done.taken, done.rejected, 0]
}

fn read_back(engine: &Engine, case: &Case, blocks: &mut [Vec<u8>]) -> [u64; 4] {
    counted((engine.read_back)(&case.read[0], &case.read[1], &mut blocks[0]))
}

fn update(engine: &Engine, case: &Case, blocks: &mut [Vec<u8>]) -> [u64; 4] {
    counted((engine.update)(case.mode, case.offset, &mut blocks[0], &case.read[0], &case.read[1]))
}

/// The three kinds of file, with how many of their lines are rejected.
fn files(size: usize) -> [(&'static str, Vec<u8>, u64); 3] {
    let n = size as u64;
    [
        ("all taken", file(size, sample::line), 0),
        ("every second taken", file(size, mixed_line), n / 2),
        ("all rejected", file(size, sample::faulty_line), n),
    ]
}

fn read_backs(size: usize) -> Vec<Case> {
    let case = |(kind, hgv, rejected): (&str, Vec<u8>, u64)| Case {
        name: format!("read back, {kind}"),
        is_import: false,
        mode: 0,
        offset: 0,
        written: vec![vec![0xAA; size]],
        read: vec![hgv.clone(), confirmed(size, &hgv)],
        call: read_back,
        expected: [0, size as u64 - rejected, rejected, 0],
    };
    files(size).into_iter().map(case).collect()
}

fn updates(size: usize) -> Vec<Case> {
    let [taken, mixed, rejected] = files(size);
    let case = |(kind, hgv, rejected): &(&str, Vec<u8>, u64), copy: &str, block: Vec<u8>, mode| Case {
        name: format!("update, {kind}, {copy} copy, mode {mode}"),
        is_import: false,
        mode,
        offset: 0,
        written: vec![block],
        read: vec![hgv.clone(), confirmed(size, hgv)],
        call: update,
        expected: [0, size as u64 - rejected, *rejected, 0],
    };
    vec![
        case(&taken, "free", free(size), 1),
        case(&taken, "full", full(size), 1),
        case(&taken, "full", full(size), 2),
        case(&mixed, "full", full(size), 1),
        case(&rejected, "full", full(size), 2),
        ahead(case(&taken, "full", full(size), 2)),
    ]
}

fn write(engine: &Engine, case: &Case, blocks: &mut [Vec<u8>]) -> [u64; 4] {
    let done = (engine.write)(&sample::list(&case.read[0], &case.read[1]), &mut blocks[0]);
    [done.number, done.length, 0, 0]
}

/// The accounts in another order. Each comes once, as the number is odd and the size a power of two.
fn scattered(size: usize) -> Vec<u8> {
    (0..size).flat_map(|i| sample::account_of(sample::line(i * 2593 % size).as_bytes())).collect()
}

fn writings(size: usize) -> Vec<Case> {
    let length = 192 + 128 * size;
    let case = |(order, accounts): (&str, Vec<u8>)| Case {
        name: format!("write, all good{order}"),
        is_import: false,
        mode: 0,
        offset: 0,
        written: vec![vec![0xAA; length]],
        read: vec![sample::row(), accounts],
        call: write,
        expected: [0, length as u64, 0, 0],
    };
    [("", sample::accounts(size)), (", PANs scattered", scattered(size))].into_iter().map(case).collect()
}

fn sweep(engine: &Engine, case: &Case, blocks: &mut [Vec<u8>]) -> [u64; 4] {
    let done = (engine.sweep)(&mut blocks[0], &case.read[0]);
    [done.number, done.removed, 0, 0]
}

/// Full registers: in the first two every second record has an end, and the time is at it or before it.
fn sweeps(size: usize) -> Vec<Case> {
    const END: &str = "20250310050000";
    let all = |i| sample::line_until(i, END);
    let half = |i: usize| if i.is_multiple_of(2) { all(i) } else { sample::line(i) };
    let kinds: [(&str, Vec<u8>, &str, usize); 3] = [
        ("half ended", sample::slots((0..size).map(half)), END, size / 2),
        ("none ended", sample::slots((0..size).map(half)), "20250310045959", 0),
        ("all ended", sample::slots((0..size).map(all)), END, size),
    ];
    let case = |(kind, register, time, removed): (&str, Vec<u8>, &str, usize)| Case {
        name: format!("sweep, {kind}"),
        is_import: false,
        mode: 0,
        offset: 0,
        written: vec![register],
        read: vec![time.as_bytes().to_vec()],
        call: sweep,
        expected: [0, removed as u64, 0, 0],
    };
    kinds.into_iter().map(case).collect()
}

pub fn all(size: usize) -> Vec<Case> {
    let of_calls = [imports, lookups, read_backs, updates, sweeps, writings];
    of_calls.into_iter().flat_map(|cases: fn(usize) -> Vec<Case>| cases(size)).collect()
}
