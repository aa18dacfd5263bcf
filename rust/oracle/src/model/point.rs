//! "Point" of document 01: the plane stand-in, the clearance in space, check 15.

use super::chart::{segments, Chart};
use super::fault::Fault;
use super::leaves::{hypot3, larger_of, smaller_of};
use super::reader::{Plane, Ring};
use super::space::{cross, dot, Position};
use super::{Answer, Model};

impl Model {
    /// (origin + u × u axis) + v × (normal cross u axis).
    pub(super) fn on_plane(&self, plane: &Plane, u: f64, v: f64) -> Position {
        let v_axis = if self.is(Fault::PlaneCrossReversed) {
            cross(plane.u_axis, plane.normal)
        } else {
            cross(plane.normal, plane.u_axis)
        };
        let mut point = [0.0; 3];
        for k in 0..3 {
            point[k] = if self.is(Fault::PlaneSumReordered) {
                plane.origin[k] + (u * plane.u_axis[k] + v * v_axis[k])
            } else {
                (plane.origin[k] + u * plane.u_axis[k]) + v * v_axis[k]
            };
        }
        point
    }

    /// Images follow the chart's written points, the candidate's last, which is
    /// the point answered. Check 15: physical clearance not above
    /// larger-of(8 × greatest deviation, 1e-7).
    pub(super) fn answer_in_space(
        &self,
        chart: &Chart,
        images: &[Position],
    ) -> Result<Answer, u32> {
        let (point, boundary) = if self.is(Fault::AnswerIsFirstImage) {
            images.split_first().ok_or(15u32)?
        } else {
            images.split_last().ok_or(15u32)?
        };
        let lengths: Vec<usize> = chart.moved.iter().map(Vec::len).collect();
        let physical = self.physical_clearance(&lengths, boundary, *point);
        let limit = self.limit(&chart.layout.rings);
        let at_limit = physical == limit && self.is(Fault::PhysicalClearanceAtLimitPasses);
        if !(physical > limit || at_limit) {
            return Err(15);
        }
        let [x, y, z] = if self.is(Fault::AnswerWithoutNegativeZero) {
            point.map(|x| x + 0.0)
        } else {
            *point
        };
        let clearance = if self.is(Fault::PhysicalClearanceReported) {
            physical
        } else {
            chart.candidate.clearance
        };
        Ok(Answer::Point {
            x,
            y,
            z,
            clearance,
            count: chart.candidate.count,
        })
    }

    /// Rule 8 in space, over all rings: `lengths` are their points.
    fn physical_clearance(&self, lengths: &[usize], images: &[Position], point: Position) -> f64 {
        let lengths: Vec<usize> = match self.fault {
            Fault::ImagesOfRingsReversed => lengths.iter().rev().copied().collect(),
            Fault::RingsJoinedInSpace => vec![lengths.iter().sum()],
            _ => lengths.to_vec(),
        };
        let left_out = usize::from(self.is(Fault::LastSegmentInSpaceOmitted));
        let mut least = f64::INFINITY;
        let mut rest = images;
        for length in lengths {
            // A planted fault may have taken a list that is too short.
            let (ring, after) = rest.split_at(length.min(rest.len()));
            for (a, b) in segments(ring).take(length - left_out) {
                least = smaller_of(least, self.distance_in_space(a, b, point));
            }
            rest = after;
        }
        least
    }

    fn limit(&self, rings: &[Ring]) -> f64 {
        let looked_at = if self.is(Fault::DeviationOfFirstRing) {
            &rings[..1]
        } else {
            rings
        };
        let coedges = looked_at.iter().flatten();
        let greatest = coedges.fold(0.0, |most, coedge| larger_of(most, coedge.deviation));
        let times = if self.is(Fault::DeviationFourTimes) {
            4.0
        } else {
            8.0
        };
        larger_of(times * greatest, 1e-7)
    }

    /// With three-term hypot.
    fn distance_in_space(&self, a: Position, b: Position, p: Position) -> f64 {
        let d = [b[0] - a[0], b[1] - a[1], b[2] - a[2]];
        let from_a = [p[0] - a[0], p[1] - a[1], p[2] - a[2]];
        let t = self.parameter(dot(from_a, d), dot(d, d));
        hypot3(
            from_a[0] - t * d[0],
            from_a[1] - t * d[1],
            from_a[2] - t * d[2],
        )
    }
}
