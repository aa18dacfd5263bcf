//! The triangle of document 01: refusals 16 to 19 and the answer.

use super::after::Found;
use super::fault::Fault;
use super::leaves::PI;
use super::space::{cross, difference, distance, dot, length, position, unit, Position, PARALLEL};
use super::Model;

/// The numbers of a side: two ends, the reversed flag, circle centre and radius, two
/// range ends, two evaluated ends.
const SIDE: usize = 19;
const FLAG: usize = 6;

/// The sphere, and the sense of the face on it.
struct Sphere {
    centre: Position,
    radius: f64,
    sense: u32,
}

/// The directions of a side's start and end, as the triangle is walked.
type Walked = (Position, Position);

impl Model {
    /// Triangle (centre, radius, sense, sides). Refusals 16 to 19.
    pub fn spherical_triangle(
        &self,
        centre: &[f64],
        radius: f64,
        sense: u32,
        sides: &[f64],
    ) -> Found {
        if centre.len() != 3 || sides.len() != 3 * SIDE || sense > 2 {
            return Found::Refused(16);
        }
        let near = [centre, &[radius], sides].map(|list| self.all_near(list));
        let flags = [0, 1, 2].map(|k| sides[SIDE * k + FLAG]);
        let is_flag = |flag: f64| flag == 0.0 || flag == 1.0 || self.is(Fault::AnyFlag);
        if near.contains(&false) || radius <= 0.0 || !flags.into_iter().all(is_flag) {
            return Found::Refused(16);
        }
        let sphere = Sphere {
            centre: position(centre, 0),
            radius,
            sense,
        };
        match self.point_in_triangle(&sphere, sides) {
            Ok(point) => Found::Position(point),
            Err(number) => Found::Refused(number),
        }
    }

    fn point_in_triangle(&self, sphere: &Sphere, sides: &[f64]) -> Result<Position, u32> {
        if self.is(Fault::SenseFirst) && sphere.sense == 0 {
            return Err(19);
        }
        let mut walked: Vec<Walked> = Vec::new();
        for side in sides.chunks_exact(SIDE) {
            walked.push(self.walked(sphere, side).ok_or(17u32)?);
            if self.is(Fault::GapsWhileWalking) {
                self.check_gaps(&walked, walked.len() - 1)?;
            }
        }
        let gaps = if self.is(Fault::LastGapOmitted) { 2 } else { 3 };
        self.check_gaps(&walked, gaps)?;
        let p = self.middle_direction(&walked).ok_or(19u32)?;
        self.check_side_of(sphere, &walked, p)?;
        Ok([0, 1, 2].map(|k| sphere.centre[k] + sphere.radius * p[k]))
    }

    /// Refusal 17 is none.
    fn walked(&self, sphere: &Sphere, side: &[f64]) -> Option<Walked> {
        let Sphere { centre, radius, .. } = *sphere;
        let [circle, sweep] = [side[10] - radius, self.sweep(side[11], side[12])];
        if self.over(
            Fault::CircleCentreAtLimit,
            distance(position(side, 7), centre),
            radius * 1e-6,
        ) || self.over(Fault::CircleRadiusAtLimit, circle.abs(), radius * 1e-6)
            || self.over(Fault::SweepAtLimit, sweep, PI)
        {
            return None;
        }
        let mut ends = [position(side, 0), position(side, 3)];
        let reversed = side[FLAG] != 0.0;
        let evaluated = [position(side, 13), position(side, 16)];
        if reversed && self.is(Fault::EvaluatedAfterReversal) {
            ends.reverse();
        }
        let apart = [0, 1].map(|k| distance(evaluated[k], ends[k]));
        if apart
            .iter()
            .any(|d| self.over(Fault::EvaluatedAtLimit, *d, radius * 1e-5))
        {
            return None;
        }
        if reversed && !self.is(Fault::EvaluatedAfterReversal) && !self.is(Fault::FlagIgnored) {
            ends.reverse();
        }
        let [start, end] = ends.map(|p| self.direction_of(sphere, p));
        Some((start?, end?))
    }

    /// The direction of a point on the sphere.
    fn direction_of(&self, sphere: &Sphere, p: Position) -> Option<Position> {
        let d = difference(p, sphere.centre);
        let off = (length(d) - sphere.radius).abs();
        if self.over(Fault::SphereAtLimit, off, sphere.radius * 1e-5) {
            return None;
        }
        self.unit(d)
    }

    fn unit(&self, v: Position) -> Option<Position> {
        if self.is(Fault::UnitAtLimit) && length(v) == PARALLEL {
            return Some(v.map(|x| x / length(v)));
        }
        unit(v)
    }

    fn sweep(&self, from: f64, to: f64) -> f64 {
        if self.is(Fault::SweepSigned) {
            return to - from;
        }
        (to - from).abs()
    }

    /// A number at its limit passes, unless a fault is planted there.
    fn over(&self, at_limit: Fault, x: f64, limit: f64) -> bool {
        x > limit || (x == limit && self.is(at_limit))
    }

    /// Check 18 of the first so many sides: a side's end direction over 1e-5 from the
    /// next's start.
    fn check_gaps(&self, walked: &[Walked], count: usize) -> Result<(), u32> {
        let next = |k: usize| walked[(k + 1) % walked.len()];
        let apart = |k: usize| distance(walked[k].1, next(k).0);
        if (0..count).any(|k| self.over(Fault::GapAtLimit, apart(k), 1e-5)) {
            return Err(18);
        }
        Ok(())
    }

    /// Of the start directions, added up from +0.
    fn middle_direction(&self, walked: &[Walked]) -> Option<Position> {
        let mut sum = [0.0; 3];
        for (start, end) in walked {
            let added = if self.is(Fault::SumOfEnds) {
                end
            } else {
                start
            };
            sum = [sum[0] + added[0], sum[1] + added[1], sum[2] + added[2]];
        }
        if self.is(Fault::SumNotUnit) {
            return Some(sum.map(|x| x / 3.0));
        }
        self.unit(sum)
    }

    /// Check 19: sense 0, or a triple product with the sense's sign not above 1e-6.
    fn check_side_of(&self, sphere: &Sphere, walked: &[Walked], p: Position) -> Result<(), u32> {
        let sign = match sphere.sense {
            1 => 1.0,
            2 if self.is(Fault::SignDropped) => 1.0,
            2 => -1.0,
            _ if self.is(Fault::AbsentSenseForward) => 1.0,
            _ => return Err(19),
        };
        let wrong = |(a, b): &Walked| {
            let product = dot(cross(*a, *b), p) * sign;
            product < 1e-6 || (product == 1e-6 && !self.is(Fault::ProductAtLimitPasses))
        };
        let looked_at = if self.is(Fault::FirstProductAlone) {
            &walked[..1]
        } else {
            walked
        };
        if looked_at.iter().any(wrong) {
            return Err(19);
        }
        Ok(())
    }
}
