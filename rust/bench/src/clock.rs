//! Nanoseconds of this thread's processor time, which a busy machine disturbs less than the clock on the wall.

/// The rounds of a measurement, about a second of them, since a shared machine is slowed for longer than a few; the fastest counts.
const ROUNDS: usize = 1000;
/// How long a round lasts at least.
const ROUND_NS: u64 = 1_000_000;

#[repr(C)]
struct TimeSpec {
    seconds: i64,
    nanoseconds: i64,
}

unsafe extern "C" {
    fn clock_gettime(clock: i32, time: *mut TimeSpec) -> i32;
}

fn now() -> u64 {
    const THREAD_CPU_TIME: i32 = 3;
    let mut time = TimeSpec { seconds: 0, nanoseconds: 0 };
    // SAFETY: the struct has the layout of Linux on x86-64 and lives through the call.
    let result = unsafe { clock_gettime(THREAD_CPU_TIME, &mut time) };
    assert_eq!(result, 0, "clock_gettime");
    (time.seconds * 1_000_000_000 + time.nanoseconds) as u64
}

fn round(calls: u64, call: &mut dyn FnMut()) -> f64 {
    let start = now();
    (0..calls).for_each(|_| call());
    (now() - start) as f64 / calls as f64
}

/// So many calls that a round is long enough to be measured.
fn calls(call: &mut dyn FnMut()) -> u64 {
    let mut calls = 1;
    while round(calls, call) * (calls as f64) < ROUND_NS as f64 {
        calls *= 2;
    }
    calls
}

/// Nanoseconds per call of each, the fastest of rounds in turn, so that all meet the same machine.
pub fn fastest<const N: usize>(all: [&mut dyn FnMut(); N]) -> [f64; N] {
    fastest_of(ROUNDS, all)
}

/// The same of a number of rounds.
pub fn fastest_of<const N: usize>(rounds: usize, mut all: [&mut dyn FnMut(); N]) -> [f64; N] {
    let counts: Vec<u64> = all.iter_mut().map(|call| calls(*call)).collect();
    let mut best = [f64::INFINITY; N];
    for _ in 0..rounds {
        for (i, call) in all.iter_mut().enumerate() {
            best[i] = best[i].min(round(counts[i], *call));
        }
    }
    best
}
