//! The measuring: sides called in turn, and the best of several repeats of each.
//!
//! Others use the machine too. The clock is that of this thread's own time on the processor, which
//! runs only while it does. What neighbours add to a repeat is never negative, so that the least
//! time of many short repeats is the one to believe; and sides in turn have the same neighbours.

use std::time::Duration;

/// How much is spent on one row of a table.
#[derive(Debug, Clone, Copy)]
pub struct Effort {
    /// How long a repeat takes at least.
    least: Duration,
    /// How often each side is repeated.
    rounds: usize,
}

impl Effort {
    pub const fn new(milliseconds: u64, rounds: usize) -> Self {
        Self {
            least: Duration::from_millis(milliseconds),
            rounds,
        }
    }
}

/// The nanoseconds of one call of each side. What is given calls a side a number of times.
pub fn best<const SIDES: usize>(
    effort: Effort,
    call: &mut dyn FnMut(usize, usize),
) -> [f64; SIDES] {
    let mut times = [1; SIDES];
    for (side, times) in times.iter_mut().enumerate() {
        *times = enough(effort, &mut |times| call(side, times));
    }
    let mut best = [f64::INFINITY; SIDES];
    for _ in 0..effort.rounds {
        for side in 0..SIDES {
            let taken = timed(&mut |times| call(side, times), times[side]);
            let one = taken.as_nanos() as f64 / times[side] as f64;
            best[side] = best[side].min(one);
        }
    }
    best
}

/// How many calls a repeat needs to take as long as it should.
fn enough(effort: Effort, call: &mut dyn FnMut(usize)) -> usize {
    let mut times = 1;
    loop {
        let taken = timed(call, times);
        if taken >= effort.least {
            return times;
        }
        let share = effort.least.as_secs_f64() / taken.as_secs_f64().max(1e-9);
        times = (times as f64 * share.clamp(1.2, 10.0)).ceil() as usize;
    }
}

fn timed(call: &mut dyn FnMut(usize), times: usize) -> Duration {
    let start = own_time();
    call(times);
    own_time() - start
}

/// A time of the C library, on a machine of 64 bits.
#[repr(C)]
struct Time {
    seconds: u64,
    nanoseconds: u64,
}

extern "C" {
    fn clock_gettime(clock: i32, time: *mut Time) -> i32;
}

/// Linux's number of the clock.
const THREAD_CPUTIME: i32 = 3;

fn own_time() -> Duration {
    let mut time = Time {
        seconds: 0,
        nanoseconds: 0,
    };
    // SAFETY: the library writes one time to where it is told.
    let answer = unsafe { clock_gettime(THREAD_CPUTIME, &mut time) };
    assert_eq!(answer, 0, "no clock of the thread's own time");
    Duration::from_secs(time.seconds) + Duration::from_nanos(time.nanoseconds)
}
