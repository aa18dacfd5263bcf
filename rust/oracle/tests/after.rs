//! Model and original on generated inputs of the calls after the picker: the same
//! bits, or refused by the same number. The number comes from the recorded copy,
//! whose every answer is the unrecorded copy's. Every fault planted in the model is
//! found.

use oracle::after::convention::count;
use oracle::after::{Call, Left, Trial};
use oracle::generate::after::trial;
use oracle::model::{Fault, Model};
use oracle::original::{PUBLISHED, STAND_IN};
use oracle::tally::{over_seeds, Tally};

/// One input of each call.
const SEEDS: u64 = 40_000;
/// Inputs of a call among which each of its faults shows.
const FAULT_SEEDS: u64 = 8_000;

fn compare_seed(seed: u64, tally: &mut Tally) {
    for call in Call::ALL {
        let trial = trial(call, seed);
        let Trial { what, given, .. } = &trial;
        let left = trial.judged();
        let left = left.unwrap_or_else(|e| panic!("seed {seed}, {call}, {what}: {e}\n{given:?}"));
        count(&trial, left, tally);
        if trial.known.is_none() {
            let unrecorded = given.left_by_original(STAND_IN);
            let same = unrecorded.numbers == left.numbers;
            assert!(same, "seed {seed}, {call}: recorders change the answer");
            let published = given.left_by_original(PUBLISHED);
            if published.numbers != left.numbers {
                tally.add(format!("{call}: another answer with the published hypot"));
            }
        }
    }
}

#[test]
fn model_and_original_agree() {
    let tally = over_seeds(SEEDS, compare_seed);
    tally.print();
    for call in Call::ALL {
        let judged = tally.of(&format!("{call}: judged by the original"));
        assert!(judged >= 20_000, "{call}: {judged}");
        assert!(tally.of(&format!("{call}: status 0")) >= 8_000, "{call}");
        for number in call.refusals() {
            let count = tally.of(&format!("{call}: status {number}"));
            assert!(count >= 2_000, "{call}, {number}: {count}");
        }
    }
    assert_limits_are_met(&tally);
}

/// Both sides of each threshold come up.
fn assert_limits_are_met(tally: &Tally) {
    for (limit, number) in [
        ("spherical_triangle, products at their limit", 19),
        ("spherical_triangle, sums at their limit", 19),
        ("spherical_triangle, gaps at their limit", 18),
        ("spherical_triangle, circles at their limit", 17),
        ("spherical_triangle, ends at their limit", 17),
        ("point_on, areas at their limit", 21),
        ("cylinder_point, turns at their limit", 23),
        ("cylinder_point, spreads at their limit", 22),
        ("placed, sums at their limit", 24),
    ] {
        for status in [0, number] {
            let what = format!("{limit}: status {status}");
            assert!(tally.of(&what) >= 100, "{what}: {}", tally.of(&what));
        }
    }
}

/// After how many inputs a fault shows, and how.
fn found(fault: Fault, judged: &[(Trial, Left)]) -> Option<String> {
    let model = Model::with(fault);
    let differs = |(trial, left): &&(Trial, Left)| trial.given.left_by(model) != *left;
    let first = judged.iter().position(|judged| differs(&judged))?;
    let (trial, left) = &judged[first];
    let faulty = trial.given.left_by(model);
    let what = format!("{}, {}", trial.given.call, trial.what);
    Some(format!(
        "{first:6} inputs: {fault:?} ({what}: {}, not {})",
        faulty.status, left.status
    ))
}

#[test]
fn every_planted_fault_is_found() {
    let trials = (0..FAULT_SEEDS).flat_map(|seed| Call::ALL.map(|call| trial(call, seed)));
    let judged: Vec<(Trial, Left)> = trials.map(|trial| (trial.clone(), trial.judge())).collect();
    assert!(Fault::AFTER.len() >= 60);
    let mut missed = Vec::new();
    for fault in Fault::AFTER {
        match found(*fault, &judged) {
            Some(how) => println!("{how}"),
            None => missed.push(fault),
        }
    }
    assert!(missed.is_empty(), "not found: {missed:?}");
}
