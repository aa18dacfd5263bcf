//! sample_parameter, the direction test and `placed`.

use super::{
    any_number, at_or_beside, hunted, judged, not_finite, of_other_length, refused, special,
    spoilt, vector, Family,
};
use crate::after::{Given, Trial};
use crate::model::space::distance;
use crate::rng::Rng;

// sample_parameter.

pub const SAMPLE_PARAMETER: &[(&str, usize, Family)] = &[
    ("ranges", 6, ranges),
    ("any ends", 4, any_ends),
    ("ends apart", 4, special_ends),
    ("close ends", 4, close_ends),
    ("overflowing ranges", 4, overflowing_ranges),
    ("an end not finite", 2, end_not_finite),
    ("n above 16", 2, n_above_16),
];

fn n(rng: &mut Rng) -> u32 {
    let any = rng.whole(1, 15) as u32;
    rng.pick(&[0, 16, any, any, any, 1, 15])
}

fn sampled(rng: &mut Rng, a: f64, b: f64) -> Trial {
    let n = n(rng);
    judged(Given::sample_parameter(a, b, n))
}

fn ranges(rng: &mut Rng) -> Trial {
    let reach = rng.pick(&[1.0, 7.0, 1000.0]);
    let [a, b] = [0; 2].map(|_| rng.between(-reach, reach));
    sampled(rng, a, b)
}

fn any_ends(rng: &mut Rng) -> Trial {
    let [a, b] = [0; 2].map(|_| any_number(rng));
    sampled(rng, a, b)
}

fn special_ends(rng: &mut Rng) -> Trial {
    let [a, b] = [0; 2].map(|_| special(rng));
    let b = rng.pick(&[b, b, a, -a]);
    sampled(rng, a, b)
}

/// A few neighbours apart, where a rounded sum may leave the range.
fn close_ends(rng: &mut Rng) -> Trial {
    let a = rng.pick(&[0.1, 1.0, 3.3, -2.7, 1e-300, f64::MIN_POSITIVE]);
    let b = f64::from_bits(a.to_bits() + rng.below(8) as u64);
    let [a, b] = rng.pick(&[[a, b], [b, a]]);
    sampled(rng, a, b)
}

/// b − a, or its product with n, is infinite; the clamp mends it.
fn overflowing_ranges(rng: &mut Rng) -> Trial {
    let [a, b] = [0; 2].map(|_| rng.between(-f64::MAX / 2.0, f64::MAX / 2.0) * 2.0);
    sampled(rng, a, b)
}

fn end_not_finite(rng: &mut Rng) -> Trial {
    let bad = not_finite(rng);
    let n = rng.pick(&[0, 5, 16, 17]);
    let given = Given::sample_parameter(1.0, 2.0, n);
    refused(spoilt(rng, given, bad), 16)
}

fn n_above_16(rng: &mut Rng) -> Trial {
    let n = rng.pick(&[17, 17, 18, 32, 256, 1 << 16, 1 << 31, u32::MAX]);
    let [a, b] = [0; 2].map(|_| rng.between(-9.0, 9.0));
    refused(Given::sample_parameter(a, b, n), 16)
}

// The direction test.

pub const DIRECTION: &[(&str, usize, Family)] = &[
    ("trims", 6, trims),
    ("trims at their limit", 5, trims_at_limit),
    ("images as far", 4, images_as_far),
    ("anywhere", 3, anywhere),
    ("overflowing distances", 2, overflowing_distances),
    ("images apart", 2, special_images),
    ("a number not finite", 2, point_not_finite),
    ("another length", 2, points_of_other_length),
];

fn moved(p: [f64; 3], by: [f64; 3]) -> [f64; 3] {
    [p[0] + by[0], p[1] + by[1], p[2] + by[2]]
}

fn directed(points: [[f64; 3]; 4]) -> Trial {
    judged(Given::direction(points.as_flattened()))
}

/// Images near the ends of an edge, walked either way.
fn trims(rng: &mut Rng) -> Trial {
    let [start, end] = [0; 2].map(|_| vector(rng, 50.0));
    let reach = rng.pick(&[0.0, 1e-5, 5e-5, 1e-4, 2e-4]);
    let first = moved(start, vector(rng, reach));
    let last = moved(end, vector(rng, reach));
    let images = rng.pick(&[[first, last], [last, first]]);
    directed([images[0], images[1], start, end])
}

/// An image as far from its end as the limit asks, along an axis or not.
fn trims_at_limit(rng: &mut Rng) -> Trial {
    let limit = at_or_beside(rng, 1e-4);
    let [start, end] = [[0.0; 3], rng.pick(&[[1.0, 0.0, 0.0], [0.0; 3]])];
    let off = if rng.once_in(2) {
        let mut off = [0.0; 3];
        off[rng.below(3)] = rng.pick(&[limit, -limit]);
        off
    } else {
        let [x, y] = [0; 2].map(|_| rng.between(0.2, 0.6) * limit);
        let z = (limit * limit - x * x - y * y).sqrt();
        [x, y, hunted(z, limit, |z| distance([x, y, z], [0.0; 3]))]
    };
    let [first, last] = match rng.below(4) {
        0 => [off, end],
        1 => [start, moved(end, off)],
        2 => [end, off],
        _ => [off, off],
    };
    directed([first, last, start, end])
}

/// Both images as far from the start, but for the order of the coordinates.
fn images_as_far(rng: &mut Rng) -> Trial {
    let first = vector(rng, 1e-4);
    let mut last = first;
    rng.shuffle(&mut last);
    let last = last.map(|x| rng.pick(&[x, -x]));
    let end = vector(rng, 1e-4);
    directed([first, last, [0.0; 3], end])
}

fn anywhere(rng: &mut Rng) -> Trial {
    let reach = rng.pick(&[1e-4, 1.0, 1e6]);
    directed([0; 4].map(|_| vector(rng, reach)))
}

fn overflowing_distances(rng: &mut Rng) -> Trial {
    let reach = rng.pick(&[1e150, 1e154, 1e300, f64::MAX / 2.0]);
    let points = [0; 4].map(|_| vector(rng, reach).map(|x| 2.0 * x));
    directed(points)
}

fn special_images(rng: &mut Rng) -> Trial {
    directed([0; 4].map(|_| [0; 3].map(|_| special(rng))))
}

fn point_not_finite(rng: &mut Rng) -> Trial {
    let bad = not_finite(rng);
    let given = trims(rng).given;
    refused(spoilt(rng, given, bad), 16)
}

fn points_of_other_length(rng: &mut Rng) -> Trial {
    let mut given = trims(rng).given;
    of_other_length(rng, &mut given.lists[0]);
    refused(given, 16)
}

// placed.

pub const PLACED: &[(&str, usize, Family)] = &[
    ("motions", 6, motions),
    ("any transforms", 4, any_transforms),
    ("numbers apart", 3, special_transforms),
    ("overflowing sums", 6, overflowing_sums),
    ("sums at their limit", 3, sums_at_limit),
    ("a number not finite", 2, placed_not_finite),
    ("another length", 2, placed_of_other_length),
];

/// Sums whose order shows in their last bits.
fn motions(rng: &mut Rng) -> Trial {
    let rows = [0; 3].map(|_| {
        let [x, y, z] = vector(rng, 1.0);
        [x, y, z, rng.between(-300.0, 300.0)]
    });
    let point = vector(rng, 100.0);
    judged(Given::placed(rows.as_flattened(), &point))
}

/// Of numbers of about the same size, or of any size.
fn any_transforms(rng: &mut Rng) -> Trial {
    let size = rng.pick(&[1.0, 1e-300, 1e100, 0.0]);
    let mut number = || match size {
        0.0 => any_number(rng),
        size => size * rng.between(-1.0, 1.0),
    };
    let transform = [0; 12].map(|_| number());
    let point = [0; 3].map(|_| number());
    judged(Given::placed(&transform, &point))
}

fn special_transforms(rng: &mut Rng) -> Trial {
    let zeros = rng.once_in(3);
    let mut number = || match zeros {
        true => rng.pick(&[0.0, -0.0, -0.0]),
        false => special(rng),
    };
    let transform = [0; 12].map(|_| number());
    let point = [0; 3].map(|_| rng.pick(&[0.0, -0.0, 1.0, -1.0, 0.5]));
    judged(Given::placed(&transform, &point))
}

fn overflowing_sums(rng: &mut Rng) -> Trial {
    let transform = [0; 12].map(|_| rng.between(-1.0, 1.0) * f64::MAX);
    let point = [0; 3].map(|_| rng.between(-2.0, 2.0));
    judged(Given::placed(&transform, &point))
}

/// One coordinate comes out as the greatest number, or just does not.
fn sums_at_limit(rng: &mut Rng) -> Trial {
    let mut transform = [0.0; 12];
    let row = 4 * rng.below(3);
    let sign = rng.pick(&[1.0, -1.0]);
    // Half of the greatest number's last place, or a little less.
    let half = 2.0f64.powi(970);
    transform[row + 3] = sign * f64::MAX;
    transform[row] = sign * rng.pick(&[half, half.next_down(), half / 2.0, -half, 2.0 * half]);
    transform[row + 1] = rng.pick(&[0.0, -sign * half]);
    judged(Given::placed(&transform, &[1.0, 1.0, -0.0]))
}

fn placed_not_finite(rng: &mut Rng) -> Trial {
    let bad = not_finite(rng);
    let given = motions(rng).given;
    refused(spoilt(rng, given, bad), 16)
}

fn placed_of_other_length(rng: &mut Rng) -> Trial {
    let mut given = motions(rng).given;
    let list = rng.below(2);
    of_other_length(rng, &mut given.lists[list]);
    refused(given, 16)
}
