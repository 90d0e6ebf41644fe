//! Times of calls that take turns.

use std::hint::black_box;
use std::time::{Duration, Instant};

/// Runs once and gives the time that counts.
pub type Call<'a> = Box<dyn FnMut() -> Duration + 'a>;

const FEWEST_ROUNDS: usize = 7;
const MOST_ROUNDS: usize = 1_001;

/// From here on processor time is taken: others on the machine do not add to
/// it. Below, asking for it would cost too much beside the work.
const LONG: Duration = Duration::from_micros(100);

/// The time of some work on the wall clock, as for another process.
pub fn wall_time<T>(work: impl FnOnce() -> T) -> Duration {
    let start = Instant::now();
    black_box(work());
    start.elapsed()
}

/// The time of some work in this thread, without what was prepared for it.
pub fn timed<T>(work: impl FnOnce() -> T) -> Duration {
    let before = processor_time();
    let wall = wall_time(work);
    match (before, processor_time()) {
        (Some(before), Some(after)) if wall > LONG => wall.min(after - before),
        _ => wall,
    }
}

/// The processor time of this thread, where the system tells.
#[cfg(all(target_os = "linux", target_pointer_width = "64"))]
fn processor_time() -> Option<Duration> {
    #[repr(C)]
    struct Time {
        seconds: i64,
        nanoseconds: i64,
    }
    extern "C" {
        fn clock_gettime(clock: i32, time: *mut Time) -> i32;
    }
    const THREAD_PROCESSOR_TIME: i32 = 3;
    let mut time = Time {
        seconds: 0,
        nanoseconds: 0,
    };
    // The call of the C library, which is linked anyway, only writes the time.
    let failed = unsafe { clock_gettime(THREAD_PROCESSOR_TIME, &mut time) } != 0;
    let seconds = u64::try_from(time.seconds).ok()?;
    let nanoseconds = u64::try_from(time.nanoseconds).ok()?;
    (!failed).then(|| Duration::from_secs(seconds) + Duration::from_nanos(nanoseconds))
}

#[cfg(not(all(target_os = "linux", target_pointer_width = "64")))]
fn processor_time() -> Option<Duration> {
    None
}

/// The median time of each call in microseconds, less the clock's own.
pub fn medians(calls: &mut [Call], budget: Duration) -> Vec<f64> {
    in_turns(calls, budget, median)
}

/// The least time of each call, likewise.
pub fn leasts(calls: &mut [Call], budget: Duration) -> Vec<f64> {
    in_turns(calls, budget, |times| {
        microseconds(times.into_iter().min().unwrap_or_default())
    })
}

/// What is chosen of the times of each call, less the clock's own. The calls take
/// turns, and each round begins with another one, so that a busy machine is busy
/// for all of them. A call that has had the budget drops out, so that a slow one
/// does not leave the others with few rounds.
fn in_turns(calls: &mut [Call], budget: Duration, chosen: fn(Vec<Duration>) -> f64) -> Vec<f64> {
    let mut times: Vec<Vec<Duration>> = vec![Vec::new(); calls.len()];
    let is_done = |times: &[Duration]| {
        times.len() == MOST_ROUNDS
            || times.len() >= FEWEST_ROUNDS && times.iter().sum::<Duration>() > budget
    };
    for round in 0..MOST_ROUNDS {
        for turn in 0..calls.len() {
            let which = (turn + round) % calls.len();
            if !is_done(&times[which]) {
                times[which].push(calls[which]());
            }
        }
    }
    let clock = clock_cost();
    times
        .into_iter()
        .map(|times| (chosen(times) - clock).max(0.001))
        .collect()
}

/// What the clock itself takes, in microseconds.
fn clock_cost() -> f64 {
    median((0..101).map(|_| timed(|| ())).collect())
}

fn median(mut times: Vec<Duration>) -> f64 {
    times.sort();
    microseconds(times[times.len() / 2])
}

fn microseconds(time: Duration) -> f64 {
    time.as_secs_f64() * 1e6
}
