//! Refusals 16 to 24 by their table: each input and the neighbour that passes; the
//! answers that the call's description names; and what examples/after.c prints.

use std::collections::BTreeSet;
use std::f64::consts::{PI, TAU};
use std::fs;
use std::path::Path;

use oracle::after::plates::{plates, Octant, Plate};
use oracle::after::{Call, Given, Left};
use oracle::model::MODEL;
use oracle::original::RECORDED;

const MINUS_ZERO: f64 = -0.0;

fn left(given: &Given) -> Left {
    given.left_by(MODEL)
}

/// The first numbers of an answer.
fn answer<const N: usize>(given: &Given) -> [f64; N] {
    let left = left(given);
    assert_eq!(left.status, 0, "{given:?}");
    assert_eq!(left, given.left_by_original(RECORDED), "{given:?}");
    assert!(left.numbers[N..].iter().all(|bits| *bits == 0));
    std::array::from_fn(|k| f64::from_bits(left.numbers[k]))
}

fn same(ours: f64, theirs: f64) {
    assert_eq!(ours.to_bits(), theirs.to_bits(), "{ours:?}, not {theirs:?}");
}

/// The original lacks 16, and the limits of 20 and 22.
fn original_says(given: &Given, status: u32) {
    if !matches!(status, 16 | 20 | 22) {
        assert_eq!(given.left_by_original(RECORDED), left(given), "{given:?}");
    }
}

#[test]
fn every_refusal_is_hit_and_its_neighbour_passes() {
    let plates = plates();
    for Plate {
        what,
        number,
        refused,
        passes,
        then,
    } in &plates
    {
        let call = refused.call;
        assert_eq!(left(refused).status, *number, "{call}, {what}");
        assert_eq!(left(refused).numbers, [0; 5], "{call}, {what}");
        assert_eq!(left(passes).status, *then, "{call}, neighbour of {what}");
        assert!(*then == 0 || then > number);
        original_says(refused, *number);
        original_says(passes, *then);
        println!("{number} {call}, {what}: {then}");
    }
    for call in Call::ALL {
        let of_call = plates.iter().filter(|plate| plate.refused.call == call);
        let numbers: BTreeSet<u32> = of_call.map(|plate| plate.number).collect();
        assert_eq!(numbers, call.refusals().iter().copied().collect(), "{call}");
    }
}

#[test]
fn a_parameters_ends_are_its_ends() {
    let sample = |a, b, n| answer::<1>(&Given::sample_parameter(a, b, n))[0];
    same(sample(MINUS_ZERO, MINUS_ZERO, 0), MINUS_ZERO);
    same(sample(MINUS_ZERO, MINUS_ZERO, 16), MINUS_ZERO);
    same(sample(MINUS_ZERO, MINUS_ZERO, 8), 0.0);
    same(sample(f64::MAX, -f64::MAX, 0), f64::MAX);
    same(sample(f64::MAX, -f64::MAX, 1), -f64::MAX);
    // b − a, four times, is infinite.
    same(sample(1e308, 1.5e308, 3), 1e308 + 5e307 * 3.0 / 16.0);
    same(sample(1e308, 1.5e308, 4), 1.5e308);
    same(sample(2.0, -2.0, 4), 1.0);
    same(sample(0.0, f64::from_bits(1), 7), 0.0);
    same(sample(0.0, f64::from_bits(1), 8), 0.0);
    same(sample(0.0, f64::from_bits(1), 9), f64::from_bits(1));
}

#[test]
fn the_direction_is_by_strict_comparisons() {
    let test = |first: f64, last: f64, end: f64| {
        let mut points = [0.0; 12];
        (points[0], points[3], points[9]) = (first, last, end);
        answer::<2>(&Given::direction(&points))
    };
    let near = 1e-4f64.next_down();
    assert_eq!(test(0.0, 1.0, 1.0), [0.0, 1.0]);
    assert_eq!(test(1.0, 0.0, 1.0), [1.0, 1.0]);
    assert_eq!(test(near, -near, 0.0), [0.0, 1.0]);
    assert_eq!(test(1e-4, near, 1e-4), [1.0, 1.0]);
    assert_eq!(test(1e-4, -1e-4, -1e-4), [0.0, 0.0]);
    assert_eq!(test(0.0, 1e-4, 0.0), [0.0, 0.0]);
    assert_eq!(test(0.0, near, 0.0), [0.0, 1.0]);
    // Both distances are infinite.
    assert_eq!(test(1e200, 1e199, 0.0), [0.0, 0.0]);
}

#[test]
fn the_octants_middle_is_found_either_way() {
    let mut octant = Octant::new(3.0);
    let forward = answer::<3>(&octant.given());
    let third = 3.0 * (1.0 / 3.0f64.sqrt());
    assert_eq!(forward, [third; 3]);
    // Walked the other way round, against every edge.
    octant.sense = 2;
    octant.sides.reverse();
    for side in &mut octant.sides {
        side.reversed = 1.0;
    }
    assert_eq!(answer::<3>(&octant.given()), forward);
}

#[test]
fn the_round_fallback_has_its_middles() {
    let middle = |angles: &[f64]| answer::<2>(&Given::cylinder_point(&[2.0, -0.0], angles));
    assert_eq!(middle(&[0.0]), [PI, 1.0]);
    assert_eq!(middle(&[-0.0, 0.0]), [PI, 1.0]);
    assert_eq!(middle(&[1.0; 256]), [1.0 + PI, 1.0]);
    // Not reduced.
    let gap = (3.0f64 - 4.0).rem_euclid(TAU);
    assert_eq!(middle(&[3.0, 4.0]), [4.0 + gap + (TAU - gap) / 2.0, 1.0]);
    assert!((middle(&[3.0, 4.0])[0] - 9.783).abs() < 1e-3);
    // 0 and 1.2e-6 are kept.
    let gap = (0.0f64 - 1.2e-6).rem_euclid(TAU);
    let [angle, _] = middle(&[0.0, 0.6e-6, 1.2e-6]);
    same(angle, 1.2e-6 + gap + (TAU - gap) / 2.0);
    let none = Given::cylinder_point(&[2.0, -0.0], &[-1e-20, 0.0]);
    assert_eq!(left(&none).status, 23);
}

#[test]
fn the_vertex_fallback_takes_the_first_centre_that_serves() {
    let flat = |corners: &[[f64; 2]]| {
        let corners: Vec<f64> = corners.iter().flat_map(|p| [p[0], p[1], 4.0]).collect();
        answer::<3>(&Given::point_on(
            &[1.0, 0.0, 0.0],
            &[0.0, 0.0, 1.0],
            &corners,
        ))
    };
    let square = [[0.0, 0.0], [3.0, 0.0], [3.0, 3.0], [0.0, 3.0]];
    assert_eq!(flat(&square), [1.0, 1.0, 4.0]);
    // A notch at the first corner: the centre of its three is outside.
    let dart = [[3.0, 1.0], [6.0, 0.0], [3.0, 9.0], [0.0, 0.0]];
    assert_eq!(flat(&dart), [4.0, 10.0 / 3.0, 4.0]);
}

#[test]
fn the_translation_comes_first() {
    let mut transform = [0.0; 12];
    transform[..4].copy_from_slice(&[1.0, 1.0, 0.0, 1e16]);
    transform[7] = -0.0;
    let point = answer::<3>(&Given::placed(&transform, &[1.0, 1.0, 1.0]));
    same(point[0], 1e16);
    assert_ne!((1.0 + 1.0) + 1e16, 1e16);
    // The products are +0.
    same(point[1], 0.0);
}

/// The calls of examples/after.c, in its order.
fn example() -> Vec<Given> {
    let mut octant = Octant::new(1.0);
    for side in &mut octant.sides {
        side.range = [0.0, 1.5];
    }
    octant.sides[1].reversed = 1.0;
    octant.sides[1].ends.reverse();
    octant.sides[1].evaluated.reverse();
    let dart = [3.0, 1.0, 4.0, 6.0, 0.0, 4.0, 3.0, 8.0, 4.0, 0.0, 0.0, 4.0];
    let points = [1.0, 0.0, 0.0, 0.0, 0.0, 5e-5, 0.0, 0.0, 0.0, 1.0, 0.0, 0.0];
    let turn = [
        0.0, -1.0, 0.0, 10.0, 1.0, 0.0, 0.0, 20.0, 0.0, 0.0, 1.0, 30.0,
    ];
    vec![
        Given::sample_parameter(0.0, 6.28125, 4),
        Given::direction(&points),
        octant.given(),
        Given::point_on(&[1.0, 0.0, 0.0], &[0.0, 0.0, 1.0], &dart),
        Given::cylinder_point(&[2.0, -1.0, 2.0], &[0.0, 0.0]),
        Given::placed(&turn, &[1.0, 2.0, 3.0]),
    ]
}

#[test]
fn the_example_prints_the_answers() {
    let printed = Path::new(env!("CARGO_MANIFEST_DIR")).join("../../examples/after.out");
    let printed = fs::read_to_string(printed).expect("what examples/after.c must print");
    let line = |given: Given| {
        let numbers = answer::<3>(&given).map(|x| format!(" {:016X}", x.to_bits()));
        format!("{}: 0{}\n", given.call, numbers.concat())
    };
    let mut lines: String = example().into_iter().map(line).collect();
    let nothing = left(&Given::placed(&[], &[])).status;
    lines += &format!("nothing placed: {nothing}\n");
    assert_eq!(printed, lines);
}
