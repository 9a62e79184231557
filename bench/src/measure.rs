//! Times of calls, measured side by side.
use std::time::{Duration, Instant};

#[repr(C)]
struct Timespec {
    seconds: i64,
    nanoseconds: i64,
}

unsafe extern "C" {
    fn clock_gettime(clock: i32, time: *mut Timespec) -> i32;
}

/// Linux: the processor time of the calling thread, in which other processes have no share.
const THREAD_CPUTIME: i32 = 3;

fn processor_time() -> Duration {
    let mut time = Timespec {
        seconds: 0,
        nanoseconds: 0,
    };
    let answer = unsafe { clock_gettime(THREAD_CPUTIME, &mut time) };
    assert_eq!(answer, 0, "the clock");
    Duration::new(time.seconds as u64, time.nanoseconds as u32)
}

pub type Call<'a> = Box<dyn FnMut() + 'a>;

/// A measurement lasts at least so long; a shorter call is repeated in it.
const LEAST: Duration = Duration::from_micros(100);

fn time(call: &mut Call, times: u32) -> Duration {
    let start = processor_time();
    for _ in 0..times {
        call();
    }
    processor_time() - start
}

/// How often a call is to be made so that it lasts long enough.
fn repetitions(call: &mut Call) -> u32 {
    let mut times = 1;
    while time(call, times) < LEAST {
        times *= 2;
    }
    times
}

/// The least time of one call of each, in nanoseconds. They take turns, so that a slow phase of the machine hits all,
/// for at least three rounds and until the time is over.
pub fn interleaved<const N: usize>(lasting: Duration, mut calls: [Call; N]) -> [f64; N] {
    let times = calls.each_mut().map(repetitions);
    let mut least = [f64::INFINITY; N];
    let start = Instant::now();
    let mut rounds = 0;
    while rounds < 3 || start.elapsed() < lasting {
        for i in 0..N {
            let total = time(&mut calls[i], times[i]).as_nanos() as f64;
            least[i] = least[i].min(total / f64::from(times[i]));
        }
        rounds += 1;
    }
    least
}

/// One interleaved measurement, which gives a line of a table.
pub type Job<'a> = Box<dyn Fn() -> Vec<f64> + 'a>;

/// All jobs, so many times one after another; of each number the least. Every line is then measured at several times
/// of the whole run, and a slow phase of the machine spoils none.
pub fn passes(jobs: &[Job], count: u32) -> Vec<Vec<f64>> {
    let mut least: Vec<Vec<f64>> = jobs.iter().map(|job| job()).collect();
    for _ in 1..count {
        for (line, job) in least.iter_mut().zip(jobs) {
            for (old, new) in line.iter_mut().zip(job()) {
                *old = old.min(new);
            }
        }
    }
    least
}
