//! Several pieces of work in turn, round after round, in one process; of each the best time and the median, in nanoseconds.
//! Every second round goes the other way, so that none always follows the same one.

use std::hint::black_box;
use std::time::Instant;

/// A piece of work that says how long it took; what it does before is not timed.
pub type Work<'a> = Box<dyn FnMut() -> f64 + 'a>;

pub struct Times {
    pub best: f64,
    pub median: f64,
}

pub fn timed<T>(work: impl FnOnce() -> T) -> f64 {
    let start = Instant::now();
    black_box(work());
    start.elapsed().as_nanos() as f64
}

/// The times of each piece, in its order. The first tenth of the rounds is not counted.
pub fn in_turn(rounds: usize, mut works: Vec<Work>) -> Vec<Times> {
    let mut times = vec![Vec::with_capacity(rounds); works.len()];
    for round in 0..rounds + rounds / 10 {
        for step in 0..works.len() {
            let place = if round % 2 == 0 { step } else { works.len() - 1 - step };
            let time = works[place]();
            if round >= rounds / 10 {
                times[place].push(time);
            }
        }
    }
    times.into_iter().map(of).collect()
}

fn of(mut times: Vec<f64>) -> Times {
    times.sort_by(f64::total_cmp);
    Times { best: times[0], median: times[times.len() / 2] }
}
