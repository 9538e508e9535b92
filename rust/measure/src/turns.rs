//! Times of several jobs side by side: in each round every job runs, and each job's time is the median of its rounds.

use std::mem::forget;
use std::ptr;
use std::time::{Duration, Instant};

/// A round of a quick job lasts about this long: long enough that the clock's own time does not show, short enough that
/// most rounds pass undisturbed on a machine with other work.
const ROUND: Duration = Duration::from_micros(300);
/// A job this slow runs in few rounds.
const SLOW: Duration = Duration::from_millis(200);
/// Rounds of a usual job, and of a slow one.
const ROUNDS: usize = 31;
const FEW_ROUNDS: usize = 5;

/// What is measured.
pub type Job<'a> = Box<dyn FnMut() + 'a>;

/// The time of one run or of several.
type Clock = fn(&mut Job, u32) -> Duration;

/// The median processor time of each job in seconds; what other programs take of the machine does not count.
pub fn side_by_side(jobs: &mut [Job]) -> Vec<f64> {
    take_turns(jobs, processor_time)
}

/// The median time by the clock on the wall of each job in seconds, for jobs that start other programs.
pub fn side_by_side_on_the_wall(jobs: &mut [Job]) -> Vec<f64> {
    take_turns(jobs, wall_time)
}

fn take_turns(jobs: &mut [Job], clock: Clock) -> Vec<f64> {
    let once: Vec<Duration> = jobs.iter_mut().map(|job| clock(job, 1)).collect();
    let repeats: Vec<u32> = jobs.iter_mut().zip(&once).map(|(job, &first)| repeats(job, first, clock)).collect();
    let mut times = vec![Vec::new(); jobs.len()];
    for round in 0..ROUNDS {
        for (place, job) in jobs.iter_mut().enumerate() {
            if round < FEW_ROUNDS || once[place] < SLOW {
                let spent = clock(job, repeats[place]);
                times[place].push(spent.as_secs_f64() / f64::from(repeats[place]));
            }
        }
    }
    times.into_iter().map(median).collect()
}

/// How often a job is repeated in a round; the first time may be far above the usual one, so a second look is taken.
fn repeats(job: &mut Job, first: Duration, clock: Clock) -> u32 {
    if first >= ROUND {
        return 1;
    }
    let usual = clock(job, 10).max(Duration::from_nanos(100)) / 10;
    (ROUND.as_nanos() / usual.as_nanos().max(1)).clamp(1, 1_000_000) as u32
}

fn wall_time(job: &mut Job, runs: u32) -> Duration {
    let begun = Instant::now();
    (0..runs).for_each(|_| job());
    begun.elapsed()
}

fn processor_time(job: &mut Job, runs: u32) -> Duration {
    let begun = processor_clock();
    (0..runs).for_each(|_| job());
    processor_clock() - begun
}

/// C's struct timespec on x86-64 Linux.
#[repr(C)]
struct Timespec {
    seconds: i64,
    nanoseconds: i64,
}

extern "C" {
    fn clock_gettime(clock: i32, time: *mut Timespec) -> i32;
}

/// CLOCK_THREAD_CPUTIME_ID of Linux.
const THREAD_CLOCK: i32 = 3;

/// The processor time that this thread has used.
fn processor_clock() -> Duration {
    let mut time = Timespec { seconds: 0, nanoseconds: 0 };
    // Safety: the struct is C's own, and it lives during the call.
    let failed = unsafe { clock_gettime(THREAD_CLOCK, &mut time) };
    assert_eq!(failed, 0, "Linux has this clock");
    Duration::new(time.seconds as u64, time.nanoseconds as u32)
}

/// The middle value.
fn median(mut values: Vec<f64>) -> f64 {
    values.sort_by(f64::total_cmp);
    values[values.len() / 2]
}

/// The value itself, of which the compiler may presume nothing, so that no work on it is done ahead or left out.
pub fn hidden<T>(value: T) -> T {
    // Safety: the value is read once from a place that holds it, and the place gives it up.
    let same = unsafe { ptr::read_volatile(&value) };
    forget(value);
    same
}

/// Takes a result, so that the job that made it is not left out.
pub fn keep<T>(result: T) {
    drop(hidden(result));
}
