//! The vertex and the round fallback: refusals 16 and 20 to 23.

use std::f64::consts::PI;

use super::{above, below, plate, Plate, FARTHEST};
use crate::after::Given;

const U: [f64; 3] = [1.0, 0.0, 0.0];
const NORMAL: [f64; 3] = [0.0, 0.0, 1.0];
const TRIANGLE: [f64; 9] = [0.0, 0.0, 0.0, 3.0, 0.0, 0.0, 0.0, 3.0, 0.0];

/// So many zeros and then this number.
fn last_of(length: usize, x: f64) -> Vec<f64> {
    let mut list = vec![0.0; length];
    list[length - 1] = x;
    list
}

/// Check 16 of the vertex fallback.
pub fn corner_numbers() -> Vec<Plate> {
    let u_axis =
        |length: usize| Given::point_on(&[1.0, 0.0, 0.0, 0.0][..length], &NORMAL, &TRIANGLE);
    let normal = |length: usize| Given::point_on(&U, &[0.0, 0.0, 1.0, 0.0][..length], &TRIANGLE);
    let corner = |x: f64| {
        let mut corners = TRIANGLE;
        corners[8] = x;
        Given::point_on(&U, &NORMAL, &corners)
    };
    let axis = |x: f64| Given::point_on(&[x, 0.0, 0.0], &NORMAL, &TRIANGLE);
    let among_10 = |x: f64| Given::point_on(&U, &NORMAL, &last_of(10, x));
    let among_400 = |x: f64| Given::point_on(&U, &NORMAL, &last_of(400, x));
    vec![
        plate(16, "u axis of two", u_axis, [2, 3]),
        plate(16, "u axis of four", u_axis, [4, 3]),
        plate(16, "no normal", normal, [0, 3]),
        plate(16, "normal of four", normal, [4, 3]),
        plate(16, "a NaN", corner, [f64::NAN, -0.0]),
        plate(16, "a corner far", corner, above(FARTHEST)),
        plate(16, "an axis far", axis, below(-FARTHEST)),
        plate(16, "20 after 16", among_10, below(-FARTHEST)).then(20),
        plate(16, "far among 400", among_400, [f64::INFINITY, 1.0]).then(20),
    ]
}

/// Check 20.
pub fn corner_counts() -> Vec<Plate> {
    let numbers = |length: usize| {
        let cycled = TRIANGLE.into_iter().cycle();
        Given::point_on(&U, &NORMAL, &cycled.take(length).collect::<Vec<f64>>())
    };
    // A triangle with corners along its base.
    let corners = |count: usize| {
        let base = (0..count - 1).flat_map(|k| [k as f64, 0.0, 0.0]);
        let corners: Vec<f64> = base.chain([0.0, 3.0, 0.0]).collect();
        Given::point_on(&U, &NORMAL, &corners)
    };
    vec![
        plate(20, "no corners", numbers, [0, 9]),
        plate(20, "two corners", numbers, [6, 9]),
        plate(20, "8 numbers", numbers, [8, 9]),
        plate(20, "10 numbers", numbers, [10, 9]),
        plate(20, "129 corners", corners, [129, 128]),
    ]
}

/// Check 21.
pub fn centres() -> Vec<Plate> {
    // 36e-20 and 64e-20 add up to 1e-18.
    let area = |z: f64| {
        let corners = [0.0, 0.0, 0.0, 1.0, 0.0, 0.0, 0.0, 6e-10, z];
        Given::point_on(&U, &[0.0, -1.0, 1.0], &corners)
    };
    let normal = |normal: [f64; 3]| Given::point_on(&U, &normal, &TRIANGLE);
    vec![
        plate(21, "area too small", area, below(8e-10)),
        plate(21, "no centre inside", normal, [U, NORMAL]),
    ]
}

/// Checks 16 and 22 of the round fallback.
pub fn heights() -> Vec<Plate> {
    let height = |x: f64| Given::cylinder_point(&[x, 1.0], &[1.0]);
    let angle = |x: f64| Given::cylinder_point(&[0.0, 1.0], &[x]);
    let among_300 = |x: f64| Given::cylinder_point(&[0.0, 1.0], &last_of(300, x));
    let without = |x: f64| Given::cylinder_point(&[], &[x]);
    let heights = |count: usize| Given::cylinder_point(&last_of(count, 1.0), &[1.0]);
    let angles = |count: usize| Given::cylinder_point(&[0.0, 1.0], &vec![1.0; count]);
    let list = |list: &[f64]| Given::cylinder_point(list, &[1.0]);
    let spread = |high: f64| Given::cylinder_point(&[high, 0.0], &[1.0]);
    let no_angles = |high: f64| Given::cylinder_point(&[high, 0.0], &[]);
    vec![
        plate(16, "a NaN", height, [f64::NAN, -0.0]),
        plate(16, "a height far", height, above(FARTHEST)),
        plate(16, "an angle far", angle, below(-FARTHEST)),
        plate(16, "far among 300", among_300, above(FARTHEST)).then(22),
        plate(16, "22 after 16", without, below(-FARTHEST)).then(22),
        plate(22, "no heights", list, [&[], &[0.0, 1.0]]),
        plate(22, "257 heights", heights, [257, 256]),
        plate(22, "257 angles", angles, [257, 256]),
        plate(22, "spread", spread, [1e-6, 1e-6f64.next_up()]),
        plate(22, "23 after 22", no_angles, [0.0, 1.0]).then(23),
    ]
}

/// Check 23.
pub fn angles() -> Vec<Plate> {
    let angles = |angles: &[f64]| Given::cylinder_point(&[0.0, 1.0], angles);
    let turn = |gap: f64| angles(&[0.0, gap]);
    let half = PI + 1e-6;
    vec![
        plate(23, "no angles", angles, [&[], &[0.0]]),
        plate(23, "half a turn", turn, [half, half.next_up()]),
        plate(23, "0 and TAU", angles, [&[-1e-20, 0.0], &[1e-20, 0.0]]),
        plate(23, "all round", angles, [&[0.0, 2.0, 4.0], &[3.0, 4.0]]),
    ]
}
