//! Model and original on generated sheets: the same point bits or both none,
//! the same chart, clearance, count and refusal number. The last three come from
//! the recorded copy, whose every run is the unrecorded copy's.

use std::f64::consts::PI;

use oracle::compare::{difference, original_run};
use oracle::generate::{case, largest, Case};
use oracle::model::MODEL;
use oracle::original::{Run, STAND_IN};
use oracle::recorder::Stage;
use oracle::sheet::{Sheet, SAMPLES, TORUS};
use oracle::surface::Surface;
use oracle::tally::{over_seeds, Tally};

const SHEETS: u64 = 20_800;

fn answered_as(kind: u8, sense: u8, phase: u32) -> String {
    format!("answered: kind {kind}, sense {sense}, phase {phase}")
}

/// A run's point and its surface evaluations, as bits.
fn shown(run: &Run) -> (Option<[u64; 3]>, Vec<[u64; 2]>) {
    let calls = run.calls.iter().map(|uv| uv.map(f64::to_bits));
    (run.point.map(|p| p.map(f64::to_bits)), calls.collect())
}

fn compare_seed(seed: u64, tally: &mut Tally) {
    let case = case(seed);
    let run = original_run(&case);
    let unrecorded = STAND_IN.pick(&case.sheet, case.phase, case.surface);
    assert_eq!(
        shown(&run),
        shown(&unrecorded),
        "seed {seed}: recorders change the run"
    );
    if let Some(difference) = difference(&case, &run, MODEL) {
        panic!("seed {seed}, {}: {difference}\n{case:?}", case.family);
    }
    let outcome = match (run.point, run.record.stage) {
        (Some(_), _) => "answered",
        (None, Stage::Check(number)) => &format!("refused by {number}"),
        (None, _) => "evaluation failed",
    };
    tally.add(outcome.to_owned());
    tally.add(format!("family {}: {outcome}", case.family));
    if run.point.is_some() {
        let (kind, sense) = (case.sheet.kind, case.sheet.sense);
        tally.add(answered_as(kind, sense, case.phase));
        if goes_around(&case, &run) {
            tally.add(format!("{}, band", answered_as(kind, sense, case.phase)));
        }
    }
}

/// A torus band, told by the boundary's evaluations: a ring that ends a turn on.
fn goes_around(case: &Case, run: &Run) -> bool {
    let mut boundary = &run.calls[1..];
    case.sheet.kind == TORUS
        && case.sheet.rings.iter().any(|ring| {
            let (ring, rest) = boundary.split_at(SAMPLES * ring.0.len());
            boundary = rest;
            (ring[0][0] - ring[ring.len() - 1][0]).abs() > PI
        })
}

#[test]
fn model_and_original_agree() {
    let tally = over_seeds(SHEETS, compare_seed);
    tally.print();
    assert!(10 * tally.of("answered") >= 4 * SHEETS as usize);
    assert!(tally.of("evaluation failed") >= 100);
    for number in 11..=15 {
        assert!(tally.of(&format!("refused by {number}")) >= 200, "{number}");
    }
    assert_kinds_are_answered(&tally);
    assert_thresholds_are_met(&tally);
}

fn assert_kinds_are_answered(tally: &Tally) {
    for kind in 0..=6 {
        for sense in 0..=2 {
            let phases = if kind == TORUS { 0..=1 } else { 0..=0 };
            for phase in phases {
                let what = answered_as(kind, sense, phase);
                assert!(tally.of(&what) >= 100, "{what}");
                // Without a sense a torus band covers nothing.
                if kind == TORUS && sense > 0 {
                    assert!(tally.of(&format!("{what}, band")) >= 100, "{what}, band");
                }
            }
        }
    }
}

/// Both sides of each threshold come up.
fn assert_thresholds_are_met(tally: &Tally) {
    for (limit, number) in [
        ("band", 11),
        ("scale", 12),
        ("join", 13),
        ("clearance", 14),
        ("space", 15),
    ] {
        for outcome in ["answered", &format!("refused by {number}")] {
            let what = format!("family {limit} at its limit: {outcome}");
            assert!(tally.of(&what) >= 20, "{what}");
        }
    }
}

/// 16 rings of 8 coedges, as every kind.
#[test]
fn model_and_original_agree_on_the_largest_sheet() {
    assert_eq!(largest().bytes().len(), 35_936);
    for kind in 0..=6 {
        let sheet = Sheet { kind, ..largest() };
        let case = Case {
            family: "largest",
            surface: Surface::Plane(sheet.plane),
            sheet,
            phase: 0,
        };
        let run = original_run(&case);
        assert_eq!(difference(&case, &run, MODEL), None);
        assert!(run.point.is_some());
    }
}
