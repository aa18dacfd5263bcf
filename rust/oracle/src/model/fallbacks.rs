//! The vertex and the round fallback of document 01: refusals 16 and 20 to 23.

use super::after::Found;
use super::fault::Fault;
use super::leaves::{larger_of, smaller_of, PI, TAU};
use super::space::{cross, difference, dot, position, Position};
use super::Model;
use crate::sheet::Uv;

/// Refusal 20 is for more corners.
const MOST_CORNERS: usize = 128;
/// Refusal 22 is for more heights or angles.
const MOST_CORNERS_ROUND: usize = 256;
/// The spread of heights that is none, and how near two angles are the same.
const SAME: f64 = 1e-6;

impl Model {
    /// Vertex fallback (u axis, normal, corners). Refusals 16, 20 and 21.
    pub fn point_on(&self, u_axis: &[f64], normal: &[f64], corners: &[f64]) -> Found {
        let looked_at = match self.fault {
            Fault::FarCornersUnchecked => &corners[..corners.len().min(3 * MOST_CORNERS)],
            _ => corners,
        };
        let near = [u_axis, normal, looked_at].map(|list| self.all_near(list));
        if u_axis.len() != 3 || normal.len() != 3 || near.contains(&false) {
            return Found::Refused(16);
        }
        let count = corners.len() / 3;
        let most = MOST_CORNERS - usize::from(self.is(Fault::CornersAtLimitRefused));
        let in_threes = corners.len().is_multiple_of(3) || self.is(Fault::CornersNotInThrees);
        if !in_threes || count < 3 || count > most {
            return Found::Refused(20);
        }
        let corners: Vec<Position> = (0..count).map(|k| position(corners, 3 * k)).collect();
        let found = self.centre_inside(position(u_axis, 0), position(normal, 0), &corners);
        found.map_or(Found::Refused(21), Found::Position)
    }

    /// The centre of the first three neighbouring corners that serves.
    fn centre_inside(
        &self,
        u: Position,
        normal: Position,
        corners: &[Position],
    ) -> Option<Position> {
        let v = match self.fault {
            Fault::CornersCrossReversed => cross(u, normal),
            _ => cross(normal, u),
        };
        let flat: Vec<Uv> = corners.iter().map(|p| [dot(*p, u), dot(*p, v)]).collect();
        let n = corners.len();
        let first = usize::from(self.is(Fault::TripleStartsAtOne));
        let order: Vec<usize> = match self.fault {
            Fault::LastTripleServes => (0..n).rev().collect(),
            _ => (0..n).map(|k| (k + first) % n).collect(),
        };
        order.into_iter().find_map(|i| {
            let before = if self.is(Fault::TripleFromCornerOn) {
                0
            } else {
                n - 1
            };
            let [a, b, c] = [0, 1, 2].map(|k| corners[(i + before + k) % n]);
            let centre = self.centre(a, b, c);
            let serves =
                !self.degenerate(a, b, c) && self.inside(&flat, [dot(centre, u), dot(centre, v)]);
            serves.then_some(centre)
        })
    }

    fn centre(&self, a: Position, b: Position, c: Position) -> Position {
        [0, 1, 2].map(|k| match self.fault {
            Fault::CentreSummedBackwards => (a[k] + (b[k] + c[k])) / 3.0,
            _ => ((a[k] + b[k]) + c[k]) / 3.0,
        })
    }

    fn degenerate(&self, a: Position, b: Position, c: Position) -> bool {
        let cross = cross(difference(b, a), difference(c, a));
        let square = dot(cross, cross);
        match self.fault {
            Fault::DegenerateServes => false,
            Fault::DegenerateAtLimit => square <= 1e-18,
            _ => square < 1e-18,
        }
    }

    /// Round fallback (heights, angles). Refusals 16, 22 and 23.
    pub fn cylinder_point(&self, heights: &[f64], angles: &[f64]) -> Found {
        let looked_at = match self.fault {
            Fault::FarAnglesUnchecked => &angles[..angles.len().min(MOST_CORNERS_ROUND)],
            _ => angles,
        };
        if !self.all_near(heights) || !self.all_near(looked_at) {
            return Found::Refused(16);
        }
        let most = MOST_CORNERS_ROUND - usize::from(self.is(Fault::AnglesAtLimitRefused));
        let too_many = [heights.len(), angles.len()].iter().any(|n| *n > most);
        let low = heights.iter().copied().fold(f64::INFINITY, smaller_of);
        let high = heights.iter().copied().fold(f64::NEG_INFINITY, larger_of);
        let spread = high - low;
        let same = spread < SAME || (spread == SAME && !self.is(Fault::SpreadAtLimitPasses));
        if heights.is_empty() || too_many || same {
            return Found::Refused(22);
        }
        if angles.is_empty() && self.is(Fault::NoAnglesBy22) {
            return Found::Refused(22);
        }
        let Some(angle) = self.middle_angle(angles) else {
            return Found::Refused(23);
        };
        let height = match self.fault {
            Fault::HeightOfTheEnds => (heights[0] + heights[heights.len() - 1]) / 2.0,
            Fault::HeightBySpread => low + spread / 2.0,
            _ => (low + high) / 2.0,
        };
        Found::Middle { angle, height }
    }

    /// Opposite the widest gap between neighbouring angles; opposite the angle where
    /// there is but one.
    fn middle_angle(&self, angles: &[f64]) -> Option<f64> {
        let angles = self.kept_angles(angles);
        let n = angles.len();
        if n == 1 {
            return Some(match self.fault {
                Fault::OneAngleItself => angles[0],
                _ => angles[0] + PI,
            });
        }
        let (mut widest, mut from) = (0.0, 0.0);
        for (i, angle) in angles.iter().enumerate() {
            let gap = self.around(angles[(i + 1) % n] - angle);
            let looked_at = i + 1 < n || !self.is(Fault::SeamGapOmitted);
            if gap > widest && looked_at {
                (widest, from) = (gap, *angle);
            }
        }
        let limit = PI + SAME;
        if !(widest > limit || (widest == limit && self.is(Fault::TurnAtLimitPasses))) {
            return None;
        }
        let middle = from + widest + (TAU - widest) / 2.0;
        Some(match self.fault {
            Fault::MiddleReduced => middle.rem_euclid(TAU),
            Fault::MiddleOfTheGap => from + widest / 2.0,
            _ => middle,
        })
    }

    /// % TAU, and TAU more where that is below 0; a −0 is not.
    fn around(&self, angle: f64) -> f64 {
        let rest = angle % TAU;
        if rest < 0.0 && !self.is(Fault::RemainderKeepsSign) {
            rest + TAU
        } else {
            rest
        }
    }

    /// In order, −0 before +0, each that is not near the one kept before it.
    fn kept_angles(&self, angles: &[f64]) -> Vec<f64> {
        let mut sorted: Vec<f64> = angles.iter().map(|a| self.around(*a)).collect();
        if !self.is(Fault::AnglesNotSorted) {
            sorted.sort_by(f64::total_cmp);
        }
        let mut kept: Vec<f64> = Vec::new();
        let mut neighbour = f64::INFINITY;
        for angle in sorted {
            let last = kept.last().copied().unwrap_or(f64::INFINITY);
            let before = match self.fault {
                Fault::DedupAgainstNeighbour => neighbour,
                _ => last,
            };
            let apart = (angle - before).abs();
            let near = apart < SAME || (apart == SAME && self.is(Fault::DedupNotStrict));
            if !near {
                kept.push(angle);
            }
            neighbour = angle;
        }
        if self.is(Fault::DedupAcrossSeam) && kept.len() > 1 {
            let last = kept[kept.len() - 1];
            if (kept[0] + TAU) - last < SAME {
                kept.pop();
            }
        }
        kept
    }
}
