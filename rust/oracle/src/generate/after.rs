//! Seedable inputs of the calls after the picker: every refusal, both sides of every
//! threshold, and the places where an easy reading of document 01 goes wrong. The
//! same call and seed give the same trial.

mod corners;
mod numbers;
mod round;
mod triangles;

use crate::after::{Call, Given, Trial};
use crate::rng::Rng;

/// The greatest magnitude of a number of the triangle and of the fallbacks.
const FARTHEST: f64 = 1_048_576.0;

type Family = fn(&mut Rng) -> Trial;

/// Every family of a call with its share of the trials.
fn families(call: Call) -> &'static [(&'static str, usize, Family)] {
    match call {
        Call::SampleParameter => numbers::SAMPLE_PARAMETER,
        Call::Direction => numbers::DIRECTION,
        Call::SphericalTriangle => triangles::SPHERICAL_TRIANGLE,
        Call::PointOn => corners::POINT_ON,
        Call::CylinderPoint => round::CYLINDER_POINT,
        Call::Placed => numbers::PLACED,
    }
}

/// The trial of a seed.
pub fn trial(call: Call, seed: u64) -> Trial {
    let mut rng = Rng::new(seed ^ (call as u64 + 1) << 48);
    let families = families(call);
    let total = families.iter().map(|(_, share, _)| share).sum();
    let mut ticket = rng.below(total);
    for (name, share, family) in families {
        if ticket < *share {
            return Trial {
                what: name,
                ..family(&mut rng)
            };
        }
        ticket -= share;
    }
    unreachable!("the ticket is below the sum of the shares")
}

/// A call whose numbers pass the checks that the original lacks; the family's name
/// is set by `trial`.
fn judged(given: Given) -> Trial {
    Trial {
        what: "",
        given,
        known: None,
    }
}

/// A call refused by a check that the original lacks.
fn refused(given: Given, number: u32) -> Trial {
    Trial {
        known: Some(number),
        ..judged(given)
    }
}

fn not_finite(rng: &mut Rng) -> f64 {
    rng.pick(&[f64::NAN, f64::INFINITY, f64::NEG_INFINITY])
}

/// Refused by 16 where 2^20 is the limit.
fn too_far(rng: &mut Rng) -> f64 {
    let past = FARTHEST.next_up();
    let any = not_finite(rng);
    rng.pick(&[past, -past, 1e300, -f64::MAX, any, any])
}

/// Any finite bits.
fn any_number(rng: &mut Rng) -> f64 {
    loop {
        let x = f64::from_bits(rng.bits());
        if x.is_finite() {
            return x;
        }
    }
}

/// Numbers that arithmetic treats apart.
fn special(rng: &mut Rng) -> f64 {
    let least = f64::from_bits(1);
    let x = rng.pick(&[
        0.0,
        least,
        f64::MIN_POSITIVE,
        f64::MIN_POSITIVE.next_down(),
        f64::EPSILON,
        1.0,
        1.0f64.next_down(),
        1e154,
        1.4e154,
        1e308,
        f64::MAX,
    ]);
    rng.pick(&[x, -x])
}

/// One number of the call put wrong, in any of its lists that has one.
fn spoilt(rng: &mut Rng, mut given: Given, number: f64) -> Given {
    let lists = given.lists.iter().enumerate();
    let filled: Vec<usize> = lists
        .filter(|(_, l)| !l.is_empty())
        .map(|(k, _)| k)
        .collect();
    let list = &mut given.lists[rng.pick(&filled)];
    let at = rng.below(list.len());
    list[at] = number;
    given
}

/// A list of another length than it should have: cut off or gone on.
fn of_other_length(rng: &mut Rng, list: &mut Vec<f64>) {
    let right = list.len();
    let length = rng.pick(&[0, 1, right - 1, right + 1, right + 3, 2 * right]);
    let length = if length == right { right + 1 } else { length };
    let fill = rng.pick(&[0.0, 1.0, 0.5]);
    list.resize(length, fill);
}

/// A number near `start` at which `f`, which grows about as its argument does, is
/// exactly the target, if there is one among the neighbours; else one next to it.
fn hunted(start: f64, target: f64, f: impl Fn(f64) -> f64) -> f64 {
    let nearer = |x: f64| x * (target / f(x));
    let middle = nearer(nearer(start));
    let first = middle.to_bits() - 60;
    let mut near = (first..first + 120).map(f64::from_bits);
    near.find(|x| f(*x) == target).unwrap_or(middle)
}

/// A threshold or one of its neighbours.
fn at_or_beside(rng: &mut Rng, x: f64) -> f64 {
    rng.pick(&[x, x, x.next_up(), x.next_down()])
}

fn vector(rng: &mut Rng, reach: f64) -> [f64; 3] {
    [0; 3].map(|_| rng.between(-reach, reach))
}
