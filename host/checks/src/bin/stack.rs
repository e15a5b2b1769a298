//! The least stack, in KiB, on which a thread ends each of the largest calls. A stack that is too small ends the process, so each
//! size is tried in a process of its own: this program again, with the call and the size.

use std::process::{Command, Stdio};
use std::{env, thread};

use graftspindle::raw;
use graftspindle_checks::plain::register::SLOT;
use graftspindle_checks::sample;

const LINES: usize = 8192;
const CALLS: [&str; 7] = ["import", "indexed import", "lookup", "read back", "update", "sweep", "write"];

/// An hour ahead of UTC, so that times are reckoned with too.
const OFFSET: i64 = 60;

/// The ends of the records that are swept, in turn: one that is not later than the reception of the sample, and none.
const ENDS: [&str; 2] = ["20250310050000", "00000000000000"];

/// A thread's stack is made of pages of so many KiB, and needs fewer than this number of them.
const PAGE: usize = 4;
const PAGES: usize = 256;

type Call = Box<dyn FnOnce() -> bool + Send>;

/// The register and the HGC that the largest file leaves.
fn imported(hgv: &[u8], rows: &[u8]) -> (Vec<u8>, Vec<u8>) {
    let (mut register, mut hgc) = (vec![0; LINES * SLOT], vec![0; 174]);
    raw::import(1, sample::RECEPTION, OFFSET, &mut register, rows, hgv, &mut hgc);
    (register, hgc)
}

/// A call on the largest blocks, which are made before it: whether it answers as it has to.
fn prepared(call: &str) -> Call {
    let (hgv, rows) = (sample::hgv(LINES), sample::row());
    let (mut register, mut hgc) = imported(&hgv, &rows);
    let taken = LINES as u64;
    match call {
        "import" => Box::new(move || {
            raw::import(2, sample::RECEPTION, OFFSET, &mut register, &rows, &hgv, &mut hgc).taken == taken
        }),
        "indexed import" => {
            let mut index = vec![u16::MAX; LINES];
            Box::new(move || {
                let (register, hgc, index) = (&mut register, &mut hgc, &mut index);
                let done = raw::import_indexed(2, sample::RECEPTION, OFFSET, register, &rows, &hgv, hgc, index);
                done.taken == taken
            })
        }
        "lookup" => {
            let key = format!("{:<19}", sample::pan(0));
            Box::new(move || raw::by_pan(&register, key.as_bytes()).0 == 0)
        }
        "read back" => Box::new(move || raw::read_back(&hgv, &hgc, &mut vec![0; LINES]).taken == taken),
        "update" => Box::new(move || raw::update(2, OFFSET, &mut register, &hgv, &hgc).taken == taken),
        "sweep" => {
            let mut ended = sample::slots((0..LINES).map(|i| sample::line_until(i, ENDS[i % 2])));
            Box::new(move || raw::sweep(&mut ended, sample::RECEPTION).removed == taken / 2)
        }
        _ => {
            let (accounts, mut out) = (sample::accounts(LINES), vec![0; hgv.len()]);
            Box::new(move || raw::write(&sample::list(&rows, &accounts), &mut out).number == 0)
        }
    }
}

/// Whether the call ends on a stack of so many pages, in this process.
fn ends_here(call: &str, pages: usize) -> bool {
    let thread = thread::Builder::new().stack_size(pages * PAGE * 1024).spawn(prepared(call));
    thread.expect("a thread").join().expect("an answer")
}

/// The same in a process of its own, which a stack that is too small ends.
fn ends(call: &str, pages: usize) -> bool {
    let mut again = Command::new(env::current_exe().expect("a program"));
    let status = again.args([call, &pages.to_string()]).stderr(Stdio::null()).status();
    status.expect("a process").success()
}

fn main() {
    let given: Vec<String> = env::args().skip(1).collect();
    if let [call, pages] = &given[..] {
        assert!(ends_here(call, pages.parse().expect("a number of pages")));
        return;
    }
    println!("| Call | KiB |\n|---|---|");
    let sizes: Vec<usize> = (1..PAGES).collect();
    for call in CALLS {
        let least = sizes[sizes.partition_point(|&pages| !ends(call, pages))];
        println!("| {call} | {} |", least * PAGE);
    }
}
