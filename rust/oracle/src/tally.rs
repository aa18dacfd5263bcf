//! Work over many seeds on both cores, and how often each thing came up in it.

use std::collections::BTreeMap;
use std::thread;

const THREADS: u64 = 2;

/// How often each thing came up.
#[derive(Default)]
pub struct Tally(BTreeMap<String, usize>);

impl Tally {
    pub fn add(&mut self, what: String) {
        *self.0.entry(what).or_default() += 1;
    }

    pub fn of(&self, what: &str) -> usize {
        self.0.get(what).copied().unwrap_or(0)
    }

    pub fn print(&self) {
        for (what, count) in &self.0 {
            println!("{count:6}  {what}");
        }
    }

    fn merge(&mut self, other: Tally) {
        for (what, count) in other.0 {
            *self.0.entry(what).or_default() += count;
        }
    }
}

/// Runs `work` on every seed from 0.
pub fn over_seeds(seeds: u64, work: impl Fn(u64, &mut Tally) + Sync) -> Tally {
    let part = &|first: u64| {
        let mut tally = Tally::default();
        (first..seeds)
            .step_by(THREADS as usize)
            .for_each(|seed| work(seed, &mut tally));
        tally
    };
    let mut tally = Tally::default();
    thread::scope(|scope| {
        let workers: Vec<_> = (0..THREADS).map(|n| scope.spawn(move || part(n))).collect();
        for worker in workers {
            tally.merge(worker.join().expect("a worker ends"));
        }
    });
    tally
}
