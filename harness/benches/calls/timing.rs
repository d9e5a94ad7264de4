//! How long a call takes.
//!
//! A call that is accepted alters memory, so calls are timed one by one: what one
//! has altered is put back when the clock has stopped, and each starts from the
//! same memory. The clock's own time is measured in the same way and subtracted.
//! The versions take turns in rounds. A turn begins with calls that are not
//! counted, so that the memory is in the caches, and gives the median of those
//! that are; of all rounds the median is taken again.

use std::hint::black_box;
use std::time::{Duration, Instant};

/// Makes one call and gives its time. What it alters is put back afterwards.
pub type Stopwatch<'a> = Box<dyn FnMut() -> Duration + 'a>;

const ROUNDS: usize = 31;

/// Calls at the beginning of a turn that are not counted, and the fewest that are.
const WARMING: usize = 3;
const COUNTED: usize = 3;

/// How long a turn lasts: long enough for hundreds of quick calls, short enough
/// that the versions often take turns.
const TURN: Duration = Duration::from_millis(1);

/// The time of one piece of work.
pub fn timed<Answer>(work: impl FnOnce() -> Answer) -> Duration {
    let start = Instant::now();
    black_box(work());
    start.elapsed()
}

/// What a version takes.
pub struct Time {
    /// Nanoseconds of a call.
    pub nanos: f64,
    /// How many times as long as the first version, compared within a round, so
    /// that a slow spell of the machine does not fall on one of them.
    pub ratio: f64,
}

/// Times the versions, in rounds in which they take turns.
pub fn times(mut versions: Vec<Stopwatch>) -> Vec<Time> {
    let rounds: Vec<Vec<f64>> = (0..ROUNDS).map(|_| round(&mut versions)).collect();
    let time = |i: usize| Time {
        nanos: median(rounds.iter().map(|round| round[i]).collect()),
        ratio: median(rounds.iter().map(|round| round[i] / round[0]).collect()),
    };
    (0..versions.len()).map(time).collect()
}

/// The median of each version in one round, without the clock's own time.
fn round(versions: &mut [Stopwatch]) -> Vec<f64> {
    let clock = turn(&mut || timed(|| ()));
    let turns = versions.iter_mut().map(|version| turn(version));
    turns.map(|turn| turn - clock).collect()
}

/// The turn of one version: the median of the calls that are counted.
fn turn(version: &mut dyn FnMut() -> Duration) -> f64 {
    for _ in 0..WARMING {
        version();
    }
    let mut times = Vec::new();
    let start = Instant::now();
    while times.len() < COUNTED || start.elapsed() < TURN {
        times.push(version().as_nanos() as f64);
    }
    median(times)
}

fn median(mut times: Vec<f64>) -> f64 {
    times.sort_unstable_by(f64::total_cmp);
    times[times.len() / 2]
}
