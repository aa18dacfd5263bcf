//! The round fallback.

use std::f64::consts::{PI, TAU};

use super::{at_or_beside, judged, refused, spoilt, too_far, Family, FARTHEST};
use crate::after::{Given, Trial};
use crate::rng::Rng;

pub const CYLINDER_POINT: &[(&str, usize, Family)] = &[
    ("arcs", 7, arcs),
    ("seams", 3, seams),
    ("all round", 5, all_round),
    ("turns at their limit", 4, turn_at_limit),
    ("close angles", 4, close),
    ("chains of angles", 3, chains),
    ("angles at the seam", 3, at_the_seam),
    ("angles told apart", 2, plain),
    ("many angles", 2, many),
    ("spreads at their limit", 2, spread_at_limit),
    ("numbers at their limit", 1, numbers_at_limit),
    ("other counts", 3, other_counts),
    ("damaged", 4, damaged),
];

/// Heights with a spread, in any order.
fn heights(rng: &mut Rng) -> Vec<f64> {
    let reach = rng.pick(&[1e-5, 1.0, 300.0]);
    let mut heights: Vec<f64> = (0..rng.whole(0, 6))
        .map(|_| rng.between(-reach, reach))
        .collect();
    heights.extend([rng.pick(&[-reach, 0.0, -0.0]), reach]);
    rng.shuffle(&mut heights);
    heights
}

fn round(rng: &mut Rng, angles: &[f64]) -> Trial {
    judged(Given::cylinder_point(&heights(rng), angles))
}

/// The same direction, so many turns on.
fn turned(rng: &mut Rng, angle: f64) -> f64 {
    angle + rng.pick(&[0.0, 0.0, 0.0, TAU, -TAU, 8.0 * TAU, -1000.0 * TAU])
}

/// Angles in less than half a turn, or a little more, anywhere around.
fn arcs(rng: &mut Rng) -> Trial {
    let from = rng.between(-PI, PI);
    let sweep = rng.pick(&[0.3, 1.5, 3.0, 3.3]);
    let mut angles: Vec<f64> = (0..rng.whole(2, 8))
        .map(|_| from + rng.between(0.0, sweep))
        .collect();
    for angle in &mut angles {
        *angle = turned(rng, *angle);
    }
    round(rng, &angles)
}

/// One angle, perhaps several times: the face goes all the way round.
fn seams(rng: &mut Rng) -> Trial {
    let any = rng.between(-PI, PI);
    let angle = rng.pick(&[any, any, 0.0, -0.0, PI, -PI, TAU, -1e-20, FARTHEST]);
    let times = rng.pick(&[1, 2, 4, 256]);
    round(rng, &vec![angle; times])
}

fn all_round(rng: &mut Rng) -> Trial {
    let count = rng.whole(3, 12);
    let step = TAU / count as f64;
    let from = rng.between(-PI, PI);
    let at = |k: usize| from + step * k as f64;
    let mut angles: Vec<f64> = (0..count).map(at).collect();
    if rng.once_in(3) {
        angles.truncate(rng.whole(0, 2));
    }
    rng.shuffle(&mut angles);
    round(rng, &angles)
}

/// The widest gap is PI + 1e-6 or a neighbour, or just half a turn.
fn turn_at_limit(rng: &mut Rng) -> Trial {
    let limit = at_or_beside(rng, PI + 1e-6);
    let gap = rng.pick(&[limit, limit, limit, PI, PI.next_up()]);
    let mut angles = rng.pick(&[
        vec![0.0, gap],
        vec![-0.0, gap],
        vec![0.5, 0.5 + gap],
        vec![-gap, 0.0],
        vec![gap, 0.0, gap + 1.0],
    ]);
    rng.shuffle(&mut angles);
    round(rng, &angles)
}

/// Two angles 1e-6 apart or by a neighbour: one or two of them.
fn close(rng: &mut Rng) -> Trial {
    let apart = at_or_beside(rng, 1e-6);
    let apart = rng.pick(&[apart, apart, 0.9e-6, 1.1e-6, f64::from_bits(1)]);
    let from = rng.pick(&[0.0, 0.0, -0.0, 1.0, 3.0]);
    let other = rng.between(1.0, 5.0);
    let mut angles = rng.pick(&[
        vec![from, from + apart],
        vec![from, from + apart],
        vec![from, from + apart, other],
    ]);
    rng.shuffle(&mut angles);
    round(rng, &angles)
}

/// Each near the one before it: every other one is kept, not the first alone.
fn chains(rng: &mut Rng) -> Trial {
    let step = rng.pick(&[0.6e-6, 0.3e-6, 0.99e-6]);
    let from = rng.pick(&[0.0, 1.0, -1e-6, 6.0]);
    let count = rng.whole(2, 9);
    let mut angles: Vec<f64> = (0..count).map(|k| from + step * k as f64).collect();
    if rng.once_in(2) {
        angles.push(from + rng.between(1.0, 5.0));
    }
    rng.shuffle(&mut angles);
    round(rng, &angles)
}

/// A little below 0, which comes round to TAU, and a little above: not the same.
fn at_the_seam(rng: &mut Rng) -> Trial {
    let below = rng.pick(&[
        -1e-20,
        -1e-7,
        -9e-7,
        -2e-6,
        -f64::from_bits(1),
        TAU,
        TAU.next_down(),
    ]);
    let above = rng.pick(&[0.0, -0.0, 1e-20, 1e-7, 2e-6]);
    let other = rng.between(-2.0, 2.0);
    let mut angles = rng.pick(&[
        vec![below, above],
        vec![below],
        vec![below, above, other],
        vec![below, other],
    ]);
    rng.shuffle(&mut angles);
    round(rng, &angles)
}

/// Those that are named where the call is described.
fn plain(rng: &mut Rng) -> Trial {
    let angles: &[f64] = rng.pick(&[
        &[] as &[f64],
        &[0.0],
        &[-0.0],
        &[-1e-20, 0.0],
        &[3.0, 4.0],
        &[0.0, 0.6e-6, 1.2e-6],
        &[-0.0, 0.0, 4.0],
        &[0.0, PI],
        &[0.0, TAU],
    ]);
    round(rng, angles)
}

/// As many as there may be of both.
fn many(rng: &mut Rng) -> Trial {
    let sweep = rng.pick(&[1.0, 3.0, TAU]);
    let count = rng.pick(&[100, 255, 256]);
    let angles: Vec<f64> = (0..count).map(|_| rng.between(0.0, sweep)).collect();
    let heights: Vec<f64> = (0..count).map(|_| rng.between(-1.0, 1.0)).collect();
    judged(Given::cylinder_point(&heights, &angles))
}

/// Heights 1e-6 apart or by a neighbour, or all the same.
fn spread_at_limit(rng: &mut Rng) -> Trial {
    let spread = at_or_beside(rng, 1e-6);
    let mut heights = rng.pick(&[
        vec![0.0, spread],
        vec![-0.0, spread],
        vec![-spread, 0.0],
        vec![0.0, spread / 2.0, spread],
        vec![5.0],
        vec![-0.0, 0.0],
    ]);
    rng.shuffle(&mut heights);
    let angles = rng.pick(&[vec![1.0], vec![]]);
    judged(Given::cylinder_point(&heights, &angles))
}

fn numbers_at_limit(rng: &mut Rng) -> Trial {
    let mut number = || rng.pick(&[FARTHEST, -FARTHEST, FARTHEST.next_down(), 0.0, -0.0]);
    let heights = [number(), number(), 1.0];
    let angles = [number(), number()];
    judged(Given::cylinder_point(&heights, &angles))
}

/// Refused by 22. The original refuses no heights.
fn other_counts(rng: &mut Rng) -> Trial {
    let (few, more) = (arcs(rng).given.lists, rng.pick(&[257, 258, 600]));
    let longer = |list: &[f64]| -> Vec<f64> { list.iter().copied().cycle().take(more).collect() };
    match rng.below(4) {
        0 => judged(Given::cylinder_point(&[], &few[1])),
        1 => refused(Given::cylinder_point(&longer(&few[0]), &few[1]), 22),
        2 => refused(Given::cylinder_point(&few[0], &longer(&few[1])), 22),
        _ => refused(Given::cylinder_point(&[], &longer(&few[1])), 22),
    }
}

/// Refused by 16, however long the lists, and before no heights or no spread.
fn damaged(rng: &mut Rng) -> Trial {
    let bad = too_far(rng);
    let family = rng.pick::<Family>(&[arcs, all_round, other_counts, spread_at_limit]);
    let mut given = family(rng).given;
    if rng.once_in(2) {
        return refused(spoilt(rng, given, bad), 16);
    }
    let list = rng.below(2);
    given.lists[list].push(bad);
    refused(given, 16)
}
