//! Many imports killed at any moment, and their next starts too: `host/kills`.

use crate::common::*;
use graftspindle_checks::generate::rng::Rng;
use std::process::{Child, Command, Stdio};
use std::time::{Duration, Instant};

fn start(folder: &Folder, line: &str) -> Child {
    let mut command = Command::new(program());
    command.args(words(folder, line)).stdout(Stdio::null()).stderr(Stdio::null());
    command.spawn().expect("it starts")
}

/// Whether the command was still at work when it was killed.
fn killed_after(folder: &Folder, line: &str, wait: Duration) -> bool {
    let (mut child, began) = (start(folder, line), Instant::now());
    while began.elapsed() < wait {
        std::hint::spin_loop();
    }
    let _ = child.kill();
    !child.wait().expect("it ends").success()
}

/// How long the command takes when nobody kills it: as long as in most of nine times.
fn time_of(line: &str) -> Duration {
    let times = (0..9).map(|_| {
        let folder = ready();
        let began = Instant::now();
        assert!(start(&folder, line).wait().expect("it ends").success());
        began.elapsed()
    });
    let mut times: Vec<Duration> = times.collect();
    times.sort();
    times[6]
}

const SHOW: &str = "register show @register";

/// How many imports are killed where nobody says how many.
const FEW: u32 = 50;

#[test]
#[ignore = "host/kills runs it: a thousand take minutes"]
fn many_imports() {
    let kills = std::env::var("GRAFTSPINDLE_KILLS").ok().and_then(|text| text.parse().ok()).unwrap_or(FEW);
    let (new, old, whole) = (imported(), both(&ready()), time_of(IMPORT));
    let mut rng = Rng::new(u64::from(std::process::id()));
    let mut moment = || whole.mul_f64(rng.below(1000) as f64 / 1000.0);
    let (mut killed, mut starts, mut seen) = (0, 0, [0, 0]);
    while killed < kills {
        let folder = ready();
        killed += u32::from(killed_after(&folder, IMPORT, moment()));
        starts += u32::from(killed_after(&folder, SHOW, moment() / 4));
        assert_eq!(graftspindle(&folder, SHOW).status, 0);
        let found = both(&folder);
        assert!(found == old || found == new, "one is old and one is new");
        assert_eq!(folder.all().len(), 4, "left over: {:?}", folder.all());
        seen[usize::from(found == new)] += 1;
    }
    let [old, new] = seen;
    println!("{killed} imports killed, {starts} next starts killed; both old {old} times, both new {new} times");
}
