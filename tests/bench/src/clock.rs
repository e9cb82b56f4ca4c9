//! The time of a call: the processor time of this thread, the least of many rounds, since what else
//! runs on the machine can only add to it.

use std::time::{Duration, Instant};

const ROUND: Duration = Duration::from_micros(250);
const LEAST_ROUNDS: usize = 2;

/// All calls are timed this often, one sweep after the other, so that no busy second spoils a time.
const SWEEPS: usize = 4;

/// The least times of each item over the sweeps; `time` gives an item's times in one of them.
pub fn sweep<T, const N: usize>(items: &[T], time: impl Fn(&T) -> [f64; N]) -> Vec<[f64; N]> {
    let mut least = vec![[f64::INFINITY; N]; items.len()];
    for _ in 0..SWEEPS {
        for (item, least) in items.iter().zip(&mut least) {
            let times = time(item);
            least.iter_mut().zip(times).for_each(|(least, time)| *least = least.min(time));
        }
    }
    least
}

/// Nanoseconds of one call of each, turn by turn, so that all meet the same machine.
pub fn best<const N: usize>(spend: Duration, mut calls: [&mut dyn FnMut(); N]) -> [f64; N] {
    let repetitions = calls.each_mut().map(|call| repetitions(*call));
    let mut best = [f64::INFINITY; N];
    let start = Instant::now();
    let mut rounds = 0;
    while rounds < LEAST_ROUNDS || start.elapsed() < spend {
        for (at, call) in calls.iter_mut().enumerate() {
            let took = round(*call, repetitions[at]).as_nanos() as f64 / f64::from(repetitions[at]);
            best[at] = best[at].min(took);
        }
        rounds += 1;
    }
    best
}

fn round(call: &mut dyn FnMut(), repetitions: u32) -> Duration {
    let start = used();
    for _ in 0..repetitions {
        call();
    }
    used() - start
}

/// As many as fill a round.
fn repetitions(call: &mut dyn FnMut()) -> u32 {
    let mut count = 1;
    while count < 1 << 20 && round(call, count) < ROUND / 2 {
        count *= 2;
    }
    count
}

#[repr(C)]
struct Timespec {
    seconds: i64,
    nanoseconds: i64,
}

extern "C" {
    fn clock_gettime(clock: i32, time: *mut Timespec) -> i32;
}

/// CLOCK_THREAD_CPUTIME_ID of Linux.
const THREAD_CPUTIME: i32 = 3;

/// The processor time that this thread has used.
fn used() -> Duration {
    let mut time = Timespec { seconds: 0, nanoseconds: 0 };
    // SAFETY: the pointer is to a timespec of 64-bit Linux, and is not kept.
    let failed = unsafe { clock_gettime(THREAD_CPUTIME, &mut time) };
    assert!(failed == 0, "no processor time on this machine");
    Duration::new(time.seconds as u64, time.nanoseconds as u32)
}
