//! The vertex fallback.

use std::f64::consts::TAU;

use super::{
    at_or_beside, hunted, judged, of_other_length, refused, spoilt, too_far, vector, Family,
    FARTHEST,
};
use crate::after::{Given, Trial};
use crate::model::space::{cross, unit};
use crate::rng::Rng;

type V3 = [f64; 3];

pub const POINT_ON: &[(&str, usize, Family)] = &[
    ("convex faces", 5, convex),
    ("stars", 6, stars),
    ("sides cut up", 4, cut_up),
    ("corners on a grid", 8, on_a_grid),
    ("corners anywhere", 3, anywhere),
    ("corners in line", 4, in_line),
    ("axes without area", 2, without_area),
    ("areas at their limit", 3, area_at_limit),
    ("many corners", 1, many),
    ("numbers at their limit", 1, numbers_at_limit),
    ("other corner counts", 3, other_counts),
    ("damaged", 4, damaged),
];

const FLAT: [V3; 2] = [[1.0, 0.0, 0.0], [0.0, 0.0, 1.0]];

/// u axis and normal: those of the flat plane, of any other, or any two vectors.
fn axes(rng: &mut Rng) -> [V3; 2] {
    let [u, other] = [0; 2].map(|_| vector(rng, 2.0));
    let at_right_angles = || {
        let u = unit(u)?;
        Some([u, unit(cross(u, other))?])
    };
    let plane = at_right_angles().unwrap_or(FLAT);
    rng.pick(&[FLAT, plane, plane, [u, other]])
}

/// Corners on the plane from their u and v.
fn on_plane(rng: &mut Rng, [u, normal]: [V3; 2], flat: &[[f64; 2]]) -> Vec<f64> {
    let reach = rng.pick(&[0.0, 50.0]);
    let (origin, v) = (vector(rng, reach), cross(normal, u));
    let corner = |p: &[f64; 2]| [0, 1, 2].map(|k| origin[k] + p[0] * u[k] + p[1] * v[k]);
    flat.iter().flat_map(corner).collect()
}

fn face(rng: &mut Rng, flat: &[[f64; 2]]) -> Trial {
    let axes = axes(rng);
    let corners = on_plane(rng, axes, flat);
    judged(Given::point_on(&axes[0], &axes[1], &corners))
}

/// Around a middle, at these distances; either way round, from any corner.
fn around(rng: &mut Rng, distances: &[f64]) -> Vec<[f64; 2]> {
    let from = rng.between(0.0, TAU);
    let step = TAU / distances.len() as f64 * rng.pick(&[1.0, -1.0]);
    let at = |(k, distance): (usize, &f64)| {
        let angle = from + step * k as f64;
        [distance * angle.cos(), distance * angle.sin()]
    };
    distances.iter().enumerate().map(at).collect()
}

fn convex(rng: &mut Rng) -> Trial {
    let corners = rng.whole(3, 9);
    let distance = rng.pick(&[0.01, 1.0, 200.0]);
    let flat = around(rng, &vec![distance; corners]);
    face(rng, &flat)
}

/// Notches between the points: the centre of three corners may lie outside.
fn stars(rng: &mut Rng) -> Trial {
    let corners = rng.whole(4, 14);
    let least = rng.pick(&[0.05, 0.2, 0.6]);
    let distances: Vec<f64> = (0..corners).map(|_| rng.between(least, 1.0)).collect();
    let flat = around(rng, &distances);
    face(rng, &flat)
}

/// Corners in the middle of sides: three in line have no area.
fn cut_up(rng: &mut Rng) -> Trial {
    let corners = rng.whole(3, 5);
    let whole = around(rng, &vec![8.0; corners]);
    let mut flat = Vec::new();
    for (k, a) in whole.iter().enumerate() {
        let b = whole[(k + 1) % corners];
        let parts = rng.whole(1, 5);
        for part in 0..parts {
            let t = part as f64 / parts as f64;
            flat.push([a[0] + t * (b[0] - a[0]), a[1] + t * (b[1] - a[1])]);
        }
    }
    let first = rng.below(flat.len());
    flat.rotate_left(first);
    face(rng, &flat)
}

/// Whole multiples of 3 on the flat plane: centres are exact, and often at the
/// height of a corner, on a side or on a corner.
fn on_a_grid(rng: &mut Rng) -> Trial {
    let corners = rng.whole(3, 8);
    let size = rng.pick(&[2, 3, 5]);
    let mut flat = || [0; 2].map(|_| 3.0 * rng.whole(0, size) as f64);
    let flat: Vec<[f64; 2]> = (0..corners).map(|_| flat()).collect();
    let corners: Vec<f64> = flat.iter().flat_map(|p| [p[0], p[1], 0.0]).collect();
    let [u, normal] = rng.pick(&[FLAT, FLAT, [[0.0, 1.0, 0.0], [0.0, 0.0, -1.0]]]);
    judged(Given::point_on(&u, &normal, &corners))
}

/// On no plane at all.
fn anywhere(rng: &mut Rng) -> Trial {
    let reach = rng.pick(&[1e-3, 1.0, 1e6]);
    let corners = rng.whole(3, 10);
    let corners: Vec<f64> = (0..corners).flat_map(|_| vector(rng, reach)).collect();
    let axes = axes(rng);
    judged(Given::point_on(&axes[0], &axes[1], &corners))
}

/// Or all the same: no three have an area.
fn in_line(rng: &mut Rng) -> Trial {
    let (from, along) = (vector(rng, 10.0), vector(rng, 1.0));
    let along = rng.pick(&[along, along, [0.0; 3], [1.0, 0.0, 0.0]]);
    let corners = rng.whole(3, 9);
    let place = |t: f64| [0, 1, 2].map(|k| from[k] + t * along[k]);
    let places: Vec<f64> = (0..corners).map(|_| rng.whole(0, 4) as f64).collect();
    let corners: Vec<f64> = places.into_iter().flat_map(place).collect();
    let axes = axes(rng);
    judged(Given::point_on(&axes[0], &axes[1], &corners))
}

/// A face whose u and v are all in line.
fn without_area(rng: &mut Rng) -> Trial {
    let mut given = stars(rng).given;
    let other = given.lists[rng.below(2)].clone();
    let which = rng.below(2);
    given.lists[which] = rng.pick(&[vec![0.0; 3], vec![-0.0, 0.0, -0.0], other]);
    judged(given)
}

/// Three corners with the square of twice their area 1e-18 or a neighbour, worked
/// out alike from each of them.
fn area_at_limit(rng: &mut Rng) -> Trial {
    let target = at_or_beside(rng, 1e-18);
    let y = rng.between(0.2, 0.8) * 1e-9;
    let z = hunted((target - y * y).sqrt(), target, |z| z * z + y * y);
    let corners = [0.0, 0.0, 0.0, 1.0, 0.0, 0.0, 0.0, y, z];
    judged(Given::point_on(&FLAT[0], &[0.0, -1.0, 1.0], &corners))
}

fn many(rng: &mut Rng) -> Trial {
    let corners = rng.pick(&[100, 127, 128]);
    let least = rng.pick(&[0.05, 1.0]);
    let distances: Vec<f64> = (0..corners).map(|_| rng.between(least, 1.0)).collect();
    let flat = around(rng, &distances);
    face(rng, &flat)
}

fn numbers_at_limit(rng: &mut Rng) -> Trial {
    let mut number = || rng.pick(&[FARTHEST, -FARTHEST, 0.0, 3.0, -0.0]);
    let [u, normal] = [0; 2].map(|_| [0; 3].map(|_| number()));
    let corners = [0; 12].map(|_| number());
    judged(Given::point_on(&u, &normal, &corners))
}

/// Refused by 20. The original has the test for fewer than 3.
fn other_counts(rng: &mut Rng) -> Trial {
    let mut given = convex(rng).given;
    let numbers = rng.pick(&[0, 3, 6, 1, 8, 10, 11, 385, 386, 387, 390, 1200]);
    let corners = given.lists[2].clone();
    given.lists[2] = corners.into_iter().cycle().take(numbers).collect();
    match numbers {
        0 | 3 | 6 => judged(given),
        _ => refused(given, 20),
    }
}

/// Refused by 16, whatever the number of corners.
fn damaged(rng: &mut Rng) -> Trial {
    let bad = too_far(rng);
    let mut given = rng.pick::<Family>(&[convex, stars, other_counts])(rng).given;
    match rng.below(3) {
        0 => given = spoilt(rng, given, bad),
        1 => {
            let list = rng.below(2);
            of_other_length(rng, &mut given.lists[list]);
        }
        _ => {
            let corners = given.lists[2].clone();
            let numbers = rng.pick(&[1, 10, 384, 387, 500]);
            given.lists[2] = corners
                .into_iter()
                .chain([1.0])
                .cycle()
                .take(numbers)
                .collect();
            *given.lists[2].last_mut().expect("one at least") = bad;
        }
    }
    refused(given, 16)
}
