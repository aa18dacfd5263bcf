//! Stubs that answer over the C convention in place of the archive: the model
//! itself, in which the comparison finds nothing, and the model with one planted
//! fault each, which it must find.

use oracle::after::convention::{compare_seed, found, Callee, Lent};
use oracle::after::{Call, Left, Trial};
use oracle::generate::after::trial;
use oracle::model::{Fault, Model};
use oracle::tally::over_seeds;

use super::reached::assert_reached;

/// Every planted fault shows within the inputs of so many seeds.
const SEEDS: u64 = 6_000;

/// Document 01's calls over the C convention.
fn model(lent: &mut Lent) -> u32 {
    with_fault(Fault::None, lent)
}

fn with_fault(fault: Fault, lent: &mut Lent) -> u32 {
    if lent.result.lent().len() != 5 {
        return 1;
    }
    put(lent.given().left_by(Model::with(fault)), lent)
}

fn put(left: Left, lent: &mut Lent) -> u32 {
    let numbers = left.numbers.map(f64::from_bits);
    lent.result.lent()[..5].copy_from_slice(&numbers);
    left.status
}

#[test]
fn the_model_shows_no_difference() {
    let seeds = 8_000;
    let tally = over_seeds(seeds, |seed, tally| compare_seed(&model, seed, tally));
    assert_reached(&tally, seeds);
}

// Faults of a call as a whole. Those of a rule are the model's own.

/// The model, and then `change` where the call answers or does not.
fn after(lent: &mut Lent, answered: bool, change: impl FnOnce(&mut Lent)) -> u32 {
    let status = model(lent);
    if (status == 0) == answered && lent.result.lent().len() == 5 {
        change(lent);
    }
    status
}

fn zeros_skipped_on_a_refusal(lent: &mut Lent) -> u32 {
    after(lent, false, |lent| lent.result.lent()[2] = 12345.0)
}

fn negative_zero_on_a_refusal(lent: &mut Lent) -> u32 {
    after(lent, false, |lent| lent.result.lent()[4] = -0.0)
}

fn fifth_number_not_written(lent: &mut Lent) -> u32 {
    after(lent, true, |lent| lent.result.lent()[4] = 12345.0)
}

fn written_behind_the_result(lent: &mut Lent) -> u32 {
    after(lent, true, |lent| lent.result.behind()[0] = 0.0)
}

fn last_list_written(lent: &mut Lent) -> u32 {
    after(lent, true, |lent| {
        let list = lent.lists.last_mut().expect("a list");
        list.lent()[0] += 1.0;
    })
}

fn written_behind_the_last_list(lent: &mut Lent) -> u32 {
    after(lent, false, |lent| {
        let list = lent.lists.last_mut().expect("a list");
        list.behind()[1] = 0.0;
    })
}

fn result_of_four_written(lent: &mut Lent) -> u32 {
    if lent.result.lent().len() == 4 {
        lent.result.lent().fill(0.0);
    }
    model(lent)
}

fn result_of_six_taken(lent: &mut Lent) -> u32 {
    match lent.result.lent().len() {
        6 => put(lent.given().left_by(Model::with(Fault::None)), lent),
        _ => model(lent),
    }
}

/// The result list's length is looked at after the numbers.
fn result_length_checked_last(lent: &mut Lent) -> u32 {
    match lent.given().left_by(Model::with(Fault::None)).status {
        0 => model(lent),
        status if lent.result.lent().len() != 5 => status,
        _ => model(lent),
    }
}

type Stub = fn(&mut Lent) -> u32;

/// Each is planted in every call.
const STUBS: &[(&str, Stub)] = &[
    ("zeros skipped on a refusal", zeros_skipped_on_a_refusal),
    ("-0 on a refusal", negative_zero_on_a_refusal),
    ("fifth number not written", fifth_number_not_written),
    ("written behind the result", written_behind_the_result),
    ("last list written", last_list_written),
    ("written behind the last list", written_behind_the_last_list),
    ("result of four written", result_of_four_written),
    ("result of six taken", result_of_six_taken),
    ("result's length checked last", result_length_checked_last),
];

/// After how many inputs a stub shows a difference, and which.
fn first_found(stub: Callee, judged: &[(Trial, Left)]) -> Option<(usize, String)> {
    let mut inputs = judged.iter().enumerate();
    inputs.find_map(|(index, (trial, left))| {
        let found = found(stub, &trial.given, *left)?;
        Some((index, format!("{}: {found}", trial.what)))
    })
}

#[test]
fn every_planted_fault_is_found() {
    let mut missed = Vec::new();
    let mut faults = vec![];
    for call in Call::ALL {
        let trials = (0..SEEDS).map(|seed| trial(call, seed));
        let judged: Vec<(Trial, Left)> = trials.map(|t| (t.clone(), t.judge())).collect();
        for (name, stub) in STUBS {
            match first_found(stub, &judged) {
                Some((inputs, how)) => println!("{inputs:5} inputs: {name}, {call} ({how})"),
                None => missed.push(format!("{name}, {call}")),
            }
        }
        for fault in Fault::AFTER {
            let stub = |lent: &mut Lent| with_fault(*fault, lent);
            if let Some((inputs, how)) = first_found(&stub, &judged) {
                println!("{inputs:5} inputs: {fault:?}, {call} ({how})");
                faults.push(*fault);
            }
        }
    }
    let unfound = Fault::AFTER.iter().filter(|fault| !faults.contains(fault));
    missed.extend(unfound.map(|fault| format!("{fault:?}")));
    assert!(missed.is_empty(), "not found: {missed:?}");
}
