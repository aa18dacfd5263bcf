//! Every fault planted in a rule of the model is found by the comparison with the
//! original, on the same generated sheets that the agreement runs over.

use std::sync::atomic::{AtomicUsize, Ordering};
use std::thread;

use oracle::compare::{difference, original_run};
use oracle::generate::{case, Case};
use oracle::model::{Fault, Model};
use oracle::original::Run;

const SHEETS: u64 = 4_000;
const THREADS: u64 = 2;

fn judged(first: u64) -> Vec<(Case, Run)> {
    let seeds = (first..SHEETS).step_by(THREADS as usize);
    let cases = seeds.map(case);
    cases
        .map(|case| (original_run(&case), case))
        .map(|(run, case)| (case, run))
        .collect()
}

/// How many sheets it takes to find the fault, and how it shows.
fn found(fault: Fault, judged: &[(Case, Run)]) -> Option<(usize, String)> {
    let model = Model::with(fault);
    let differences = judged
        .iter()
        .map(|(case, run)| difference(case, run, model));
    let first = differences
        .enumerate()
        .find(|(_, difference)| difference.is_some());
    let (index, difference) = first?;
    Some((
        index + 1,
        format!("{}: {}", judged[index].0.family, difference?),
    ))
}

#[test]
fn every_planted_fault_is_found() {
    let workers: Vec<_> = (0..THREADS)
        .map(|n| thread::spawn(move || judged(n)))
        .collect();
    let parts = workers
        .into_iter()
        .map(|worker| worker.join().expect("a worker ends"));
    let judged: Vec<(Case, Run)> = parts.flatten().collect();
    assert!(Fault::RULES.len() >= 20);

    let next = AtomicUsize::new(0);
    let missed = AtomicUsize::new(0);
    let work = || {
        while let Some(fault) = Fault::RULES.get(next.fetch_add(1, Ordering::Relaxed)) {
            if let Some((sheets, difference)) = found(*fault, &judged) {
                println!("{sheets:5} sheets: {fault:?} ({difference})");
            } else {
                println!("not found: {fault:?}");
                missed.fetch_add(1, Ordering::Relaxed);
            }
        }
    };
    thread::scope(|scope| {
        for _ in 0..THREADS {
            scope.spawn(work);
        }
    });
    assert_eq!(missed.into_inner(), 0, "of {} faults", Fault::RULES.len());
}
