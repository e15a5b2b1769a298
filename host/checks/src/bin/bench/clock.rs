//! The least time of several runs, each on fresh blocks; making these is not timed. A short call is run more often, since
//! the pace of a processor changes within milliseconds. The clock is this thread's time on the processor, so that other
//! work on the machine is not counted.

use std::hint::black_box;

const MILLISECONDS: f64 = 10.0;

#[repr(C)]
struct Time {
    seconds: i64,
    nanoseconds: i64,
}

extern "C" {
    fn clock_gettime(clock: i32, time: *mut Time) -> i32;
}

const THREAD_ON_PROCESSOR: i32 = 3;

fn milliseconds() -> f64 {
    let mut time = Time { seconds: 0, nanoseconds: 0 };
    // SAFETY: the clock is one that Linux has, and the time is a local of its form on a machine of 64 bits.
    let answer = unsafe { clock_gettime(THREAD_ON_PROCESSOR, &mut time) };
    assert_eq!(answer, 0, "Linux counts a thread's time");
    time.seconds as f64 * 1e3 + time.nanoseconds as f64 / 1e6
}

/// The least time, the answer and the blocks after it, which are the same each time.
pub fn least<A: PartialEq>(blocks: &[Vec<u8>], run: impl Fn(&mut [Vec<u8>]) -> A) -> (f64, (A, Vec<Vec<u8>>)) {
    let once = || {
        let mut fresh = blocks.to_vec();
        let start = milliseconds();
        let answer = run(&mut fresh);
        (milliseconds() - start, (answer, fresh))
    };
    let (mut best, outcome) = once();
    let mut spent = best;
    while spent < MILLISECONDS {
        let (time, again) = once();
        assert!(again == outcome, "one call, two outcomes");
        best = best.min(time);
        spent += time;
    }
    (best, outcome)
}

pub fn copying(written: &[Vec<u8>], read: &[Vec<u8>]) -> f64 {
    let from: Vec<&Vec<u8>> = written.iter().chain(read).collect();
    let room: Vec<Vec<u8>> = from.iter().map(|block| vec![1; block.len()]).collect();
    let copy = |to: &mut [Vec<u8>]| {
        to.iter_mut().zip(&from).for_each(|(to, from)| to.copy_from_slice(black_box(from)));
        black_box(to);
    };
    least(&room, copy).0
}
