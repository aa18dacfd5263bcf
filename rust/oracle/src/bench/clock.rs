//! Timing: the lanes of a race run in turn, round after round, so that whatever else
//! the machine does falls on all of them alike.

use std::hint::black_box;
use std::time::{Duration, Instant};

/// A batch takes at least so long, for the clock to tell.
const BATCH: Duration = Duration::from_millis(2);

/// One thing that is timed.
pub struct Lane<'a> {
    /// Made before a batch, outside of its time.
    ready: Box<dyn Fn() + 'a>,
    run: Box<dyn FnMut() + 'a>,
}

impl<'a> Lane<'a> {
    pub fn new<T>(run: impl FnMut() -> T + 'a) -> Lane<'a> {
        Lane::with(|| (), run)
    }

    pub fn with<T>(ready: impl Fn() + 'a, mut run: impl FnMut() -> T + 'a) -> Lane<'a> {
        Lane {
            ready: Box::new(ready),
            run: Box::new(move || {
                black_box(run());
            }),
        }
    }

    fn batch(&mut self, runs: u32) -> Duration {
        (self.ready)();
        let start = Instant::now();
        for _ in 0..runs {
            (self.run)();
        }
        start.elapsed()
    }

    /// How many runs make a batch: twice as many until they take long enough.
    fn batch_size(&mut self) -> u32 {
        let mut runs = 1;
        while self.batch(runs) < BATCH {
            runs *= 2;
        }
        runs
    }
}

/// Microseconds a run, over the rounds.
#[derive(Clone, Copy, Debug)]
pub struct Times {
    pub least: f64,
    pub median: f64,
}

impl Times {
    fn of(mut rounds: Vec<f64>) -> Times {
        rounds.sort_by(f64::total_cmp);
        Times {
            least: rounds[0],
            median: rounds[rounds.len() / 2],
        }
    }
}

/// The times of each lane. There is at least one round.
pub fn race<const N: usize>(mut lanes: [Lane; N], rounds: usize) -> [Times; N] {
    let sizes = lanes.each_mut().map(Lane::batch_size);
    let mut times = [const { Vec::new() }; N];
    for _ in 0..rounds.max(1) {
        for ((lane, runs), times) in lanes.iter_mut().zip(sizes).zip(&mut times) {
            let batch = lane.batch(runs);
            times.push(batch.as_secs_f64() * 1e6 / f64::from(runs));
        }
    }
    times.map(Times::of)
}
