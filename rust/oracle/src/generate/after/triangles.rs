//! The spherical triangle.

use std::f64::consts::PI;

use super::{
    at_or_beside, hunted, judged, of_other_length, refused, spoilt, too_far, vector, Family,
    FARTHEST,
};
use crate::after::{Given, Side, Trial, SIDE_LENGTH};
use crate::model::space::{cross, distance, dot, length, unit};
use crate::rng::Rng;

type V3 = [f64; 3];

pub const SPHERICAL_TRIANGLE: &[(&str, usize, Family)] = &[
    ("triangles", 9, triangles),
    ("turned triangles", 3, turned),
    ("slim triangles", 3, slim),
    ("slim open triangles", 3, slim_and_open),
    ("products at their limit", 2, product_at_limit),
    ("great circles", 2, great_circles),
    ("sums at their limit", 1, sum_at_limit),
    ("open triangles", 5, open),
    ("gaps at their limit", 2, gap_at_limit),
    ("loose sides", 3, loose),
    ("sides off the sphere", 4, off_the_sphere),
    ("circles at their limit", 2, circle_at_limit),
    ("ends at their limit", 2, end_at_limit),
    ("small spheres", 1, small_spheres),
    ("evaluated as walked", 1, evaluated_as_walked),
    ("several refusals", 2, several),
    ("numbers at their limit", 1, numbers_at_limit),
    ("damaged", 4, damaged),
];

const OCTANT: [V3; 3] = [[1.0, 0.0, 0.0], [0.0, 1.0, 0.0], [0.0, 0.0, 1.0]];

/// A sphere and the sides on it.
struct Plan {
    centre: V3,
    radius: f64,
    sense: u32,
    sides: [Side; 3],
}

impl Plan {
    /// Through three corners, given by their directions.
    fn through(rng: &mut Rng, centre: V3, radius: f64, corners: [V3; 3]) -> Plan {
        let [a, b, c] = corners;
        Plan::of(rng, centre, radius, [[a, b], [b, c], [c, a]])
    }

    /// Of three sides, given by the directions of their start and end. The sense is
    /// the one that the triangle is walked in.
    fn of(rng: &mut Rng, centre: V3, radius: f64, walked: [[V3; 2]; 3]) -> Plan {
        let [a, b, c] = walked.map(|[start, _]| start);
        let sides = walked.map(|ends| side(rng, centre, radius, ends));
        Plan {
            centre,
            radius,
            sense: if dot(cross(a, b), c) > 0.0 { 1 } else { 2 },
            sides,
        }
    }

    fn given(&self) -> Given {
        let sides: Vec<f64> = self.sides.iter().flat_map(Side::numbers).collect();
        Given::spherical_triangle(&self.centre, self.radius, self.sense, &sides)
    }

    fn judged(&self) -> Trial {
        judged(self.given())
    }
}

fn on_sphere(centre: V3, radius: f64, direction: V3) -> V3 {
    [0, 1, 2].map(|k| centre[k] + radius * direction[k])
}

/// A side that passes by itself, walked from the first direction to the second.
fn side(rng: &mut Rng, centre: V3, radius: f64, directions: [V3; 2]) -> Side {
    let mut ends = directions.map(|direction| on_sphere(centre, radius, direction));
    let reversed = rng.pick(&[0.0, -0.0, 1.0, 1.0]);
    if reversed == 1.0 {
        ends.reverse();
    }
    let from = rng.between(-4.0, 4.0);
    let sweep = rng.between(-3.1, 3.1);
    Side {
        ends,
        reversed,
        circle_centre: centre,
        circle_radius: radius,
        range: [from, from + sweep],
        evaluated: ends,
    }
}

fn direction(rng: &mut Rng) -> V3 {
    loop {
        let v = vector(rng, 1.0);
        if (0.1..=1.0).contains(&length(v)) {
            return v.map(|x| x / length(v));
        }
    }
}

fn sphere(rng: &mut Rng) -> (V3, f64) {
    let radius = rng.pick(&[1.0, 0.01, 3.0, 1000.0, 1e5]) * rng.between(0.5, 1.5);
    let reach = rng.pick(&[0.0, 1.0, 5.0]) * radius;
    (vector(rng, reach), radius)
}

fn any_plan(rng: &mut Rng) -> Plan {
    let (centre, radius) = sphere(rng);
    let corners = [0; 3].map(|_| direction(rng));
    Plan::through(rng, centre, radius, corners)
}

fn triangles(rng: &mut Rng) -> Trial {
    any_plan(rng).judged()
}

/// With the other sense, or none.
fn turned(rng: &mut Rng) -> Trial {
    let mut plan = any_plan(rng);
    plan.sense = rng.pick(&[0, 3 - plan.sense, 3 - plan.sense]);
    plan.judged()
}

/// Nearly on a great circle, on either side of it.
fn slim_corners(rng: &mut Rng) -> [V3; 3] {
    let height = rng.between(-1e-5, 1e-5);
    let [x, y] = [0; 2].map(|_| rng.between(0.3, 1.0));
    [
        OCTANT[0],
        OCTANT[1],
        unit([x, y, height]).expect("long enough"),
    ]
}

fn slim(rng: &mut Rng) -> Trial {
    let corners = slim_corners(rng);
    let mut plan = Plan::through(rng, [0.0; 3], 1.0, corners);
    plan.sense = rng.pick(&[plan.sense, 1]);
    plan.judged()
}

/// With ends beside the next start, so that the products of the sides differ.
fn slim_and_open(rng: &mut Rng) -> Trial {
    let corners = slim_corners(rng);
    let walked = [0, 1, 2].map(|k| {
        let by = vector(rng, 5e-6);
        [corners[k], beside_direction(corners[(k + 1) % 3], by)]
    });
    Plan::of(rng, [0.0; 3], 1.0, walked).judged()
}

fn beside_direction(d: V3, by: V3) -> V3 {
    unit([d[0] + by[0], d[1] + by[1], d[2] + by[2]]).expect("long enough")
}

/// The least of the three products with corners that are directions already.
fn least_product([a, b, c]: [V3; 3]) -> f64 {
    let sum = [0, 1, 2].map(|k| ((0.0 + a[k]) + b[k]) + c[k]);
    let Some(p) = unit(sum) else { return 0.0 };
    let products = [[a, b], [b, c], [c, a]].map(|[a, b]| dot(cross(a, b), p));
    products.into_iter().fold(f64::INFINITY, f64::min)
}

/// The least product is 1e-6 or a neighbour.
fn product_at_limit(rng: &mut Rng) -> Trial {
    let target = at_or_beside(rng, 1e-6);
    let [x, y] = [0; 2].map(|_| rng.between(0.3, 1.0));
    let corners = |height: f64| {
        let third = unit([x, y, height]).expect("long enough");
        // As the call finds them: directions of directions.
        [OCTANT[0], OCTANT[1], unit(third).expect("a direction")]
    };
    let slope = least_product(corners(1e-6)) / 1e-6;
    let height = hunted(target / slope, target, |height| {
        least_product(corners(height))
    });
    let mut third = corners(height);
    third[2] = unit([x, y, height]).expect("long enough");
    let [a, b, c] = third;
    let turned = rng.pick(&[[a, b, c], [a, c, b]]);
    Plan::through(rng, [0.0; 3], 1.0, turned).judged()
}

/// Three corners around a great circle, or on one half of it.
fn great_circles(rng: &mut Rng) -> Trial {
    let (centre, radius) = sphere(rng);
    let step = rng.pick(&[2.0 * PI / 3.0, 0.5, 2.0]);
    let from = rng.between(0.0, 6.0);
    let at = |k: f64| [(from + k * step).cos(), (from + k * step).sin(), 0.0];
    let mut plan = Plan::through(rng, centre, radius, [at(0.0), at(1.0), at(2.0)]);
    plan.sense = rng.pick(&[1, 2]);
    plan.judged()
}

/// Corners around the equator, a little above it: their sum is as long as `unit` asks.
fn sum_at_limit(rng: &mut Rng) -> Trial {
    let target = at_or_beside(rng, 1e-9);
    let far = 0.75f64.sqrt();
    let [q, r] = [0; 2].map(|_| rng.between(0.5, 1.5));
    let corners = |z: f64| [[1.0, 0.0, z], [-0.5, far, q * z], [-0.5, -far, r * z]];
    let sum = |z: f64| {
        let [a, b, c] = corners(z).map(|d| unit(d).expect("long enough"));
        length([0, 1, 2].map(|k| ((0.0 + a[k]) + b[k]) + c[k]))
    };
    let z = hunted(target / 3.0, target, sum);
    Plan::through(rng, [0.0; 3], 1.0, corners(z)).judged()
}

/// A side ends about 1e-5 beside where the next begins.
fn open(rng: &mut Rng) -> Trial {
    let (centre, radius) = sphere(rng);
    let corners = [0; 3].map(|_| direction(rng));
    let which = rng.below(3);
    let reach = rng.pick(&[3e-6, 1e-5, 3e-5, 1e-3]);
    let walked = [0, 1, 2].map(|k| {
        let end = corners[(k + 1) % 3];
        let by = if k == which {
            vector(rng, reach)
        } else {
            [0.0; 3]
        };
        [corners[k], beside_direction(end, by)]
    });
    Plan::of(rng, centre, radius, walked).judged()
}

/// One gap of the octant is 1e-5 or a neighbour.
fn gap_at_limit(rng: &mut Rng) -> Trial {
    let target = at_or_beside(rng, 1e-5);
    let off = |y: f64| unit([1.0, y, 0.0]).expect("long enough");
    let y = hunted(target, target, |y| distance(off(y), OCTANT[0]));
    let which = rng.below(3);
    let walked = [0, 1, 2].map(|k| {
        let (start, mut end) = (OCTANT[k], OCTANT[(k + 1) % 3]);
        if k == which {
            end[(k + 2) % 3] = y;
        }
        [start, end]
    });
    Plan::of(rng, [0.0; 3], 1.0, walked).judged()
}

/// Sides that do not meet at all.
fn loose(rng: &mut Rng) -> Trial {
    let (centre, radius) = sphere(rng);
    let corners = [0; 4].map(|_| direction(rng));
    let [a, b, c, d] = corners;
    let walked = rng.pick(&[
        [[a, b], [b, c], [c, d]],
        [[a, b], [d, c], [c, a]],
        [[a, b], [c, d], [d, a]],
        [[b, a], [c, b], [a, c]],
    ]);
    Plan::of(rng, centre, radius, walked).judged()
}

/// One thing of one side off by about its limit.
fn off_the_sphere(rng: &mut Rng) -> Trial {
    let mut plan = any_plan(rng);
    let (radius, which) = (plan.radius, rng.below(3));
    let (circle, end) = (rng.between(-2e-6, 2e-6), vector(rng, 1e-5));
    let side = &mut plan.sides[which];
    let k = rng.below(2);
    match rng.below(5) {
        0 => side.circle_centre[k] += circle * radius,
        1 => side.circle_radius += circle * radius,
        2 => side.range[k] += rng.pick(&[-3.0, 3.0]),
        3 => side.evaluated[k] = on_sphere(side.evaluated[k], radius, end),
        _ => {
            side.ends[k] = on_sphere(side.ends[k], radius, end);
            side.evaluated[k] = side.ends[k];
        }
    }
    plan.judged()
}

/// An octant with a radius of which `part`, 1e-6 or 1e-5, is an exact number: so
/// that something can be off by just that. The radius and that number.
fn exact_radius(rng: &mut Rng, part: f64) -> (f64, f64) {
    loop {
        let off = rng.whole(1, 999) as f64 * 2.0f64.powi(-(rng.whole(12, 30) as i32));
        let radius = off * (1.0 / part).round();
        if radius * part == off {
            return (radius, off);
        }
    }
}

fn circle_at_limit(rng: &mut Rng) -> Trial {
    let (radius, off) = exact_radius(rng, 1e-6);
    let mut plan = Plan::through(rng, [0.0; 3], radius, OCTANT);
    let side = &mut plan.sides[rng.below(3)];
    let sweep = at_or_beside(rng, PI);
    match rng.below(3) {
        0 => side.circle_centre[rng.below(3)] = at_or_beside(rng, off) * rng.pick(&[1.0, -1.0]),
        1 => side.circle_radius = rng.pick(&[radius + off, radius - off]),
        _ => side.range = rng.pick(&[[0.0, sweep], [sweep, 0.0], [-sweep, 0.0]]),
    }
    side.circle_radius = at_or_beside(rng, side.circle_radius);
    plan.judged()
}

fn end_at_limit(rng: &mut Rng) -> Trial {
    let (radius, off) = exact_radius(rng, 1e-5);
    let mut plan = Plan::through(rng, [0.0; 3], radius, OCTANT);
    let side = &mut plan.sides[rng.below(3)];
    let k = rng.below(2);
    let along = (0..3)
        .find(|axis| side.ends[k][*axis] != 0.0)
        .expect("one is not 0");
    if rng.once_in(2) {
        let beside = (along + 1) % 3;
        side.evaluated[k][beside] = at_or_beside(rng, off) * rng.pick(&[1.0, -1.0]);
    } else {
        let far = rng.pick(&[radius + off, radius - off]);
        side.ends[k][along] = at_or_beside(rng, far);
        side.evaluated = side.ends;
    }
    plan.judged()
}

/// Too small for `unit`, or just not.
fn small_spheres(rng: &mut Rng) -> Trial {
    let limit = at_or_beside(rng, 1e-9);
    let radius = rng.pick(&[
        limit,
        limit,
        1e-12,
        1e-8,
        f64::MIN_POSITIVE,
        f64::from_bits(1),
    ]);
    Plan::through(rng, [0.0; 3], radius, OCTANT).judged()
}

/// The evaluated ends of a reversed side in the order in which it is walked.
fn evaluated_as_walked(rng: &mut Rng) -> Trial {
    let mut plan = any_plan(rng);
    let side = &mut plan.sides[rng.below(3)];
    side.evaluated.reverse();
    plan.judged()
}

/// 17 at the last side, 18 before it, 19 for want of a sense: two or all of them.
fn several(rng: &mut Rng) -> Trial {
    let mut plan = any_plan(rng);
    let which = rng.below(4);
    if which != 0 {
        plan.sense = 0;
    }
    if which != 1 {
        plan.sides[2].circle_radius *= 1.01;
    }
    if which != 2 {
        plan.sides[0].reversed = 1.0 - plan.sides[0].reversed.abs();
    }
    plan.judged()
}

/// The last place that passes check 16, on either side of 0.
fn numbers_at_limit(rng: &mut Rng) -> Trial {
    let centre = [0; 3].map(|_| rng.pick(&[FARTHEST, -FARTHEST, 0.0, -0.0]));
    // The octant that leads back from the centre.
    let towards = OCTANT.map(|d| [0, 1, 2].map(|k| if centre[k] > 0.0 { -d[k] } else { d[k] }));
    let radius = rng.pick(&[1.0, 4096.0, FARTHEST]);
    let mut plan = Plan::through(rng, centre, radius, towards);
    plan.sides[0].range = rng.pick(&[[FARTHEST, FARTHEST - 1.0], [-FARTHEST, 1.0 - FARTHEST]]);
    plan.judged()
}

/// Refused by 16.
fn damaged(rng: &mut Rng) -> Trial {
    let plan = any_plan(rng);
    let mut given = plan.given();
    let bad = too_far(rng);
    match rng.below(6) {
        0 | 1 => given = spoilt(rng, given, bad),
        2 => {
            let list = rng.pick(&[0, 2]);
            of_other_length(rng, &mut given.lists[list]);
        }
        3 => given.whole = rng.pick(&[3, 4, 256, 1 << 31, u32::MAX]),
        4 => given.lists[1][0] = rng.pick(&[0.0, -0.0, -1.0, -plan.radius, -f64::MIN_POSITIVE]),
        _ => {
            let flag = SIDE_LENGTH * rng.below(3) + 6;
            let no_flag = [
                2.0,
                -1.0,
                0.5,
                f64::MIN_POSITIVE,
                1.0f64.next_up(),
                1.0f64.next_down(),
            ];
            given.lists[2][flag] = rng.pick(&no_flag);
        }
    }
    refused(given, 16)
}
