//! Stubs that answer over the C convention in place of the archive: the model
//! itself, in which the comparison finds nothing, and the model with one planted
//! fault each, which it must find.

use oracle::call::{Call, Given};
use oracle::compare::UNWRITTEN;
use oracle::convention::{compare_seed, first_difference, judged_calls, Callee, Judged, Lent};
use oracle::model::{Fault, Model, MODEL};
use oracle::sheet::{Ring, Sheet, TORUS};
use oracle::tally::over_seeds;

use super::reached::assert_reached;

/// Every planted fault shows within the calls of so many seeds.
const SEEDS: u64 = 400;

/// Document 01's calls over the C convention.
fn model(lent: &mut Lent) -> u32 {
    with_fault(Fault::None, lent)
}

fn with_fault(fault: Fault, lent: &mut Lent) -> u32 {
    if lent.result.lent().len() != 5 {
        return 1;
    }
    let (sheet, phase, list) = (lent.sheet.lent(), lent.phase, lent.list.lent());
    let model = Model::with(fault);
    let answer = match lent.call {
        Call::Chart => model.chart(sheet, phase, list),
        Call::ImagePick => model.image_pick(sheet, phase, list),
        Call::PlanePick => model.plane_pick(sheet),
    };
    let (status, numbers) = answer.numbers();
    let result = lent.result.lent();
    result.copy_from_slice(&numbers.map(f64::from_bits));
    status
}

#[test]
fn the_model_shows_no_difference() {
    let seeds = 1_000;
    let tally = over_seeds(seeds, |seed, tally| compare_seed(&model, seed, tally));
    assert_reached(&tally, seeds);
}

// Faults of a call as a whole. Those of a rule are the model's own.

/// The model, and then `change` where the status is one that it asks for.
fn after(lent: &mut Lent, statuses: fn(u32) -> bool, change: impl FnOnce(&mut Lent)) -> u32 {
    let status = model(lent);
    if statuses(status) && lent.result.lent().len() == 5 {
        change(lent);
    }
    status
}

fn answered(status: u32) -> bool {
    status == 0
}

fn refused(status: u32) -> bool {
    status != 0
}

fn list_written_on_a_refusal(lent: &mut Lent) -> u32 {
    after(lent, refused, |lent| lent.list.lent().fill(1.0))
}

/// The list serves as scratch while the grid is searched.
fn list_written_before_14(lent: &mut Lent) -> u32 {
    let before_14 = |status| status == 14;
    after(lent, before_14, |lent| lent.list.lent()[0] += 1.0)
}

fn tail_written(lent: &mut Lent) -> u32 {
    after(lent, answered, |lent| {
        let tail = lent.list.lent().iter_mut().filter(|x| **x == UNWRITTEN);
        tail.for_each(|x| *x = 0.0);
    })
}

fn nothing_written(lent: &mut Lent) -> u32 {
    let before = lent.list.lent().to_vec();
    let status = model(lent);
    lent.list.lent().copy_from_slice(&before);
    status
}

fn list_written(lent: &mut Lent) -> u32 {
    after(lent, answered, |lent| lent.list.lent()[0] += 1.0)
}

fn sheet_written(lent: &mut Lent) -> u32 {
    after(lent, answered, |lent| lent.sheet.lent()[8] ^= 1)
}

fn written_behind_the_sheet(lent: &mut Lent) -> u32 {
    after(lent, answered, |lent| lent.sheet.behind()[1] = 0)
}

fn written_behind_the_list(lent: &mut Lent) -> u32 {
    after(lent, answered, |lent| lent.list.behind()[0] = 0.0)
}

fn written_behind_the_result(lent: &mut Lent) -> u32 {
    after(lent, refused, |lent| lent.result.behind()[1] = 0.0)
}

fn count_one_more(lent: &mut Lent) -> u32 {
    after(lent, answered, |lent| lent.result.lent()[4] += 1.0)
}

fn x_and_y_swapped(lent: &mut Lent) -> u32 {
    after(lent, answered, |lent| lent.result.lent().swap(0, 1))
}

fn u_and_v_swapped_in_the_list(lent: &mut Lent) -> u32 {
    after(lent, answered, |lent| {
        let pairs = lent.list.lent()[..34].chunks_exact_mut(2);
        pairs.for_each(<[f64]>::reverse);
    })
}

fn third_coordinate_negative(lent: &mut Lent) -> u32 {
    after(lent, answered, |lent| lent.result.lent()[2] = -0.0)
}

fn zeros_skipped_on_a_refusal(lent: &mut Lent) -> u32 {
    after(lent, refused, |lent| lent.result.lent().fill(UNWRITTEN))
}

fn clearance_left_on_a_15(lent: &mut Lent) -> u32 {
    after(
        lent,
        |status| status == 15,
        |lent| lent.result.lent()[3] = 0.25,
    )
}

fn result_of_four_written(lent: &mut Lent) -> u32 {
    if lent.result.lent().len() == 4 {
        lent.result.lent().fill(0.0);
    }
    model(lent)
}

/// The status of a call with a result list of five.
fn with_result_of_five(lent: &mut Lent) -> (u32, [f64; 5]) {
    let mut given = given(lent);
    let left = given.left_by(MODEL);
    given.list = left.list;
    lent.list.lent().copy_from_slice(&given.numbers());
    (left.status, left.numbers.map(f64::from_bits))
}

fn given(lent: &mut Lent) -> Given {
    Given {
        call: lent.call,
        sheet: lent.sheet.lent().to_vec(),
        phase: lent.phase,
        list: lent.list.lent().iter().map(|x| x.to_bits()).collect(),
    }
}

fn result_of_six_taken(lent: &mut Lent) -> u32 {
    if lent.result.lent().len() != 6 {
        return model(lent);
    }
    let (status, numbers) = with_result_of_five(lent);
    lent.result.lent()[..5].copy_from_slice(&numbers);
    status
}

/// The result list's length is looked at when the output is written already.
fn result_length_checked_last(lent: &mut Lent) -> u32 {
    let (status, numbers) = with_result_of_five(lent);
    if lent.result.lent().len() != 5 {
        return 1;
    }
    lent.result.lent().copy_from_slice(&numbers);
    status
}

/// The sheet is looked at before the result list's length.
fn result_length_after_the_sheet(lent: &mut Lent) -> u32 {
    match given(lent).left_by(MODEL).status {
        status @ 1..=8 if lent.result.lent().len() != 5 => status,
        _ => model(lent),
    }
}

// Checks in another order than the table's.

fn checks_6_and_7_swapped(lent: &mut Lent) -> u32 {
    match model(lent) {
        6 if a_coedge_fails_7(lent.sheet.lent()) => 7,
        status => status,
    }
}

fn a_coedge_fails_7(bytes: &[u8]) -> bool {
    let sheet = Sheet::read(bytes).expect("a sheet refused by 6 reads");
    let fails = |ring: Ring| {
        let alone = Sheet::new(sheet.kind, sheet.sense, vec![ring]);
        MODEL.chart(&alone.bytes(), 0, &mut []).numbers().0 == 7
    };
    let mut coedges = sheet.rings.iter().flat_map(|ring| ring.0.clone());
    coedges.any(|coedge| fails(Ring(vec![coedge])))
}

fn checks_7_and_8_swapped(lent: &mut Lent) -> u32 {
    let kind = lent.sheet.lent().get(5).copied();
    let fails_8 = match lent.call {
        Call::PlanePick => kind != Some(0),
        _ => lent.phase > 1 || (lent.phase == 1 && kind != Some(TORUS)),
    };
    match model(lent) {
        7 if fails_8 => 8,
        status => status,
    }
}

/// The status that the sheet's call has with a list that passes.
fn status_with_a_list(lent: &mut Lent) -> Option<u32> {
    let sheet = Sheet::read(lent.sheet.lent())?;
    let given = match lent.call {
        Call::Chart => Given::chart(&sheet, lent.phase),
        _ => {
            let images = vec![0.0; 3 * (sheet.point_count() + 1)];
            Given::image_pick(&sheet, lent.phase, &images)
        }
    };
    Some(given.left_by(MODEL).status)
}

/// A wrong list is looked at after a later check.
fn list_checked_after(check: u32, lent: &mut Lent) -> u32 {
    match model(lent) {
        9 | 10 if status_with_a_list(lent) == Some(check) => check,
        status => status,
    }
}

fn list_one_short_passes(lent: &mut Lent) -> u32 {
    let mut longer = given(lent);
    longer.list.push(UNWRITTEN.to_bits());
    let left = longer.left_by(MODEL);
    if lent.result.lent().len() != 5 {
        return model(lent);
    }
    longer.list = left.list;
    let room = lent.list.lent().len();
    lent.list.lent().copy_from_slice(&longer.numbers()[..room]);
    lent.result
        .lent()
        .copy_from_slice(&left.numbers.map(f64::from_bits));
    left.status
}

type Stub = fn(&mut Lent) -> u32;

const LISTS: &[Call] = &[Call::Chart, Call::ImagePick];
const PICKS: &[Call] = &[Call::ImagePick, Call::PlanePick];
const CHART: &[Call] = &[Call::Chart];
const IMAGE_PICK: &[Call] = &[Call::ImagePick];
const PLANE_PICK: &[Call] = &[Call::PlanePick];
const ALL: &[Call] = &Call::ALL;

/// Each is planted in one of its calls after another.
const STUBS: &[(&str, &[Call], Stub)] = &[
    (
        "list written on a refusal",
        LISTS,
        list_written_on_a_refusal,
    ),
    ("list written before a 14", LISTS, list_written_before_14),
    ("tail written", CHART, tail_written),
    ("nothing written", CHART, nothing_written),
    ("list written", LISTS, list_written),
    ("sheet written", ALL, sheet_written),
    ("written behind the sheet", ALL, written_behind_the_sheet),
    ("written behind the list", ALL, written_behind_the_list),
    ("written behind the result", ALL, written_behind_the_result),
    ("count one more", ALL, count_one_more),
    ("x, y swapped", ALL, x_and_y_swapped),
    (
        "u, v swapped in the list",
        CHART,
        u_and_v_swapped_in_the_list,
    ),
    ("third coordinate -0", CHART, third_coordinate_negative),
    (
        "zeros skipped on a refusal",
        ALL,
        zeros_skipped_on_a_refusal,
    ),
    ("clearance left on a 15", PICKS, clearance_left_on_a_15),
    ("result of four written", ALL, result_of_four_written),
    ("result of six taken", ALL, result_of_six_taken),
    (
        "result's length checked last",
        CHART,
        result_length_checked_last,
    ),
    (
        "result's length after the sheet",
        ALL,
        result_length_after_the_sheet,
    ),
    ("checks 6 and 7 swapped", ALL, checks_6_and_7_swapped),
    ("checks 7 and 8 swapped", ALL, checks_7_and_8_swapped),
    ("list checked after 11", LISTS, |lent| {
        list_checked_after(11, lent)
    }),
    ("list checked after 12", LISTS, |lent| {
        list_checked_after(12, lent)
    }),
    ("list checked after 13", LISTS, |lent| {
        list_checked_after(13, lent)
    }),
    ("list checked after 14", LISTS, |lent| {
        list_checked_after(14, lent)
    }),
    ("a list one short passes", CHART, list_one_short_passes),
];

/// Of the model's faults in rules, those that document 01 and the list of tests
/// name; and all of the picks' own.
const RULES: &[Fault] = &[
    Fault::PhaseKeptInAnswer,
    Fault::PhaseKeptInWrittenPoints,
    Fault::ReadPointsWritten,
    Fault::LastOfEqualClearances,
    Fault::VOuterLoop,
    Fault::NegativeZeroKept,
    Fault::HalvesToEven,
    Fault::MovedTowardFirst,
    Fault::InsideOnCylinder,
    Fault::VScaleCapped,
    Fault::JoinTurnOnSphere,
    Fault::CountOfImprovements,
    Fault::PlaneCrossReversed,
    Fault::PlaneSumReordered,
    Fault::PhysicalClearanceReported,
    Fault::DeviationOfFirstRing,
    Fault::DeviationFourTimes,
    Fault::PhysicalClearanceAtLimitPasses,
    Fault::AnswerIsFirstImage,
];

/// The calls in which a fault is to be found, in each by itself.
fn calls_of(fault: Fault) -> &'static [Call] {
    match fault {
        Fault::CountOfImprovements => ALL,
        // The point that image pick answers is the host's.
        Fault::LastOfEqualClearances | Fault::VOuterLoop => &[Call::Chart, Call::PlanePick],
        Fault::PlaneCrossReversed | Fault::PlaneSumReordered | Fault::PlanePickOnOther => {
            PLANE_PICK
        }
        Fault::PhysicalClearanceReported
        | Fault::DeviationOfFirstRing
        | Fault::DeviationFourTimes
        | Fault::PhysicalClearanceAtLimitPasses
        | Fault::AnswerIsFirstImage => PICKS,
        fault if Fault::LISTS.contains(&fault) => IMAGE_PICK,
        _ => CHART,
    }
}

/// After how many calls a stub shows a difference, and which.
fn found(stub: Callee, judged: &[Vec<Judged>]) -> Option<(usize, String)> {
    let mut before = 0;
    judged.iter().find_map(|calls| {
        let found = first_difference(stub, calls);
        let found = found.map(|(index, how)| (before + index + 1, how));
        before += calls.len();
        found
    })
}

#[test]
fn every_planted_fault_is_found() {
    let judged: Vec<Vec<Judged>> = (0..SEEDS).map(judged_calls).collect();
    let mut missed = Vec::new();
    let mut plant = |name: &str, calls: &[Call], stub: Callee| {
        for call in calls {
            let planted = |lent: &mut Lent| match lent.call == *call {
                true => stub(lent),
                false => model(lent),
            };
            match found(&planted, &judged) {
                Some((calls, how)) => println!("{calls:5} calls: {name}, {call} ({how})"),
                None => missed.push(format!("{name}, {call}")),
            }
        }
    };
    for (name, calls, stub) in STUBS {
        plant(name, calls, stub);
    }
    for fault in RULES.iter().chain(Fault::LISTS) {
        let stub = |lent: &mut Lent| with_fault(*fault, lent);
        plant(&format!("{fault:?}"), calls_of(*fault), &stub);
    }
    assert!(missed.is_empty(), "not found: {missed:?}");
}

/// A callee whose every answer is the one expected, but for the order of the
/// rings: the comparison of a call with its first order finds it by itself.
#[test]
fn an_answer_that_changes_with_the_order_is_found() {
    let fault = Fault::DeviationOfFirstRing;
    let stub = |lent: &mut Lent| with_fault(fault, lent);
    let as_expected = |mut judged: Judged| {
        judged.left = judged.trial.given.left_by(Model::with(fault));
        judged
    };
    let expected = |seed| judged_calls(seed).into_iter().map(as_expected).collect();
    let judged: Vec<Vec<Judged>> = (0..SEEDS).map(expected).collect();
    let (_, how) = found(&stub, &judged).expect("a difference");
    assert_eq!(how, "another answer than in the first order");
}
