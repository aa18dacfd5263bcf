//! "After the picker" of document 01: what the calls answer and check 16, with the
//! short ones; the triangle and both fallbacks have files of their own. Where
//! document 01 is shorter than the Rust, the order of operations is the Rust's.

use super::fault::Fault;
use super::leaves::{clamp, larger_of, smaller_of};
use super::space::{distance, position, Position};
use super::Model;

/// The greatest magnitude of a number of the triangle and of the fallbacks, 2^20.
const FARTHEST: f64 = 1_048_576.0;
/// An edge's last sample.
const SAMPLES: u32 = 16;
/// How near a trim's ends lie to those of its edge.
const NEAR: f64 = 1e-4;

/// The outcome of a call.
#[derive(Clone, Copy, Debug)]
pub enum Found {
    Parameter(f64),
    Direction { reverse: bool, keep: bool },
    Position(Position),
    Middle { angle: f64, height: f64 },
    Refused(u32),
}

impl Found {
    /// Status, then the five result numbers as bits: what is found, the rest 0. With
    /// a refusal all five are 0.
    pub fn numbers(&self) -> (u32, [u64; 5]) {
        let five = |[x, y, z]: Position| [x, y, z, 0.0, 0.0].map(f64::to_bits);
        match *self {
            Found::Parameter(value) => (0, five([value, 0.0, 0.0])),
            Found::Direction { reverse, keep } => {
                (0, five([f64::from(reverse), f64::from(keep), 0.0]))
            }
            Found::Position(p) => (0, five(p)),
            Found::Middle { angle, height } => (0, five([angle, height, 0.0])),
            Found::Refused(number) => (number, [0; 5]),
        }
    }
}

/// Check 16 of sample_parameter, the direction test and `placed`.
fn all_finite(list: &[f64]) -> bool {
    list.iter().all(|x| x.is_finite())
}

impl Model {
    /// Check 16 of the triangle and the fallbacks: a number not finite or above 2^20
    /// in magnitude, however long the list.
    pub(super) fn all_near(&self, list: &[f64]) -> bool {
        let far = |x: f64| match self.fault {
            Fault::NumberAtLimitRefused => x.abs() >= FARTHEST,
            Fault::NegativeNumberUnbounded => x > FARTHEST,
            _ => x.abs() > FARTHEST,
        };
        list.iter().all(|x| x.is_finite() && !far(*x))
    }

    /// sample_parameter (two ends, n). Refusal 16.
    pub fn sample_parameter(&self, a: f64, b: f64, n: u32) -> Found {
        let most = SAMPLES + u32::from(self.is(Fault::SeventeenthSample));
        if !all_finite(&[a, b]) || n > most {
            return Found::Refused(16);
        }
        Found::Parameter(match n {
            0 if !self.is(Fault::FirstSampleByFormula) => a,
            SAMPLES if !self.is(Fault::LastSampleByFormula) => b,
            _ => self.sample_between(a, b, n),
        })
    }

    fn sample_between(&self, a: f64, b: f64, n: u32) -> f64 {
        let (part, samples) = (f64::from(n), f64::from(SAMPLES));
        let x = match self.fault {
            Fault::SamplePartFirst => a + (b - a) * (part / samples),
            _ => a + ((b - a) * part) / samples,
        };
        match self.fault {
            Fault::SampleNotClamped => x,
            Fault::SampleClampedAsGiven => clamp(x, a, b),
            _ => clamp(x, smaller_of(a, b), larger_of(a, b)),
        }
    }

    /// The direction test (first image, last image, start, end). Refusal 16.
    pub fn direction(&self, points: &[f64]) -> Found {
        if points.len() != 12 || !all_finite(points) {
            return Found::Refused(16);
        }
        let [first, last, start, end] = [0, 3, 6, 9].map(|at| position(points, at));
        let [from_first, from_last] = [first, last].map(|image| self.apart(image, start));
        let reverse = match self.fault {
            Fault::DirectionTieReversed => from_last <= from_first,
            Fault::DirectionByTheEnd => self.apart(first, end) < self.apart(last, end),
            _ => from_last < from_first,
        };
        let turned = reverse && !self.is(Fault::KeepBeforeReversal);
        let (first, last) = if turned { (last, first) } else { (first, last) };
        let near = |image: Position, vertex: Position| {
            let apart = self.apart(image, vertex);
            apart < NEAR || (apart == NEAR && self.is(Fault::KeepAtLimit))
        };
        let [at_start, at_end] = [near(first, start), near(last, end)];
        let keep = match self.fault {
            Fault::KeepByEitherEnd => at_start || at_end,
            _ => at_start && at_end,
        };
        Found::Direction { reverse, keep }
    }

    fn apart(&self, a: Position, b: Position) -> f64 {
        if self.is(Fault::DistanceByOneRoot) {
            return super::space::length(super::space::difference(a, b));
        }
        distance(a, b)
    }

    /// `placed` (transform, point). Refusals 16 and 24.
    pub fn placed(&self, transform: &[f64], point: &[f64]) -> Found {
        if transform.len() != 12 || point.len() != 3 {
            return Found::Refused(16);
        }
        if !all_finite(transform) || !all_finite(point) {
            return Found::Refused(16);
        }
        let p = position(point, 0);
        let placed = [0, 1, 2].map(|k| match self.fault {
            Fault::TransformByColumns => {
                let column = [0, 3, 6].map(|at| transform[at + k]);
                self.row(column, transform[9 + k], p)
            }
            _ => self.row(position(transform, 4 * k), transform[4 * k + 3], p),
        });
        if !all_finite(&placed) && !self.is(Fault::InfinityPlaced) {
            return Found::Refused(24);
        }
        Found::Position(placed)
    }

    /// The translation first.
    fn row(&self, r: Position, translation: f64, p: Position) -> f64 {
        match self.fault {
            Fault::TranslationLast => ((r[0] * p[0] + r[1] * p[1]) + r[2] * p[2]) + translation,
            Fault::RowSummedBackwards => ((translation + r[2] * p[2]) + r[1] * p[1]) + r[0] * p[0],
            _ => ((translation + r[0] * p[0]) + r[1] * p[1]) + r[2] * p[2],
        }
    }
}
