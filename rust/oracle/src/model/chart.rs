//! "Chart" of document 01: rules 1 to 9, checks 11 to 14, and the answer.

use super::fault::Fault;
use super::leaves::{clamp, hypot, larger_of, round, smaller_of, PI, TAU};
use super::reader::{Layout, Ring};
use super::{Answer, Model};
use crate::sheet::Uv;

/// The chosen grid point.
pub struct Candidate {
    pub p: Uv,
    pub clearance: f64,
    pub count: u32,
}

/// A sheet whose chart was prepared and searched.
pub struct Chart {
    pub layout: Layout,
    phase: f64,
    /// The moved points, ring by ring.
    pub moved: Vec<Vec<Uv>>,
    least: Uv,
    scale: Uv,
    pub candidate: Candidate,
}

/// Rule 3, what rules 4 to 9 need of it.
struct Frame {
    least: Uv,
    scale: Uv,
    uncapped: f64,
    band: bool,
    periodic: bool,
    sense: u8,
    /// Rule 5's P.
    period: f64,
}

impl Model {
    pub(super) fn prepare_and_search(&self, layout: Layout, phase: u32) -> Result<Chart, u32> {
        let turned = self.turned(&layout, phase);
        let moved: Vec<Vec<Uv>> = turned
            .iter()
            .map(|ring| self.moved(ring, layout.kind))
            .collect();
        let frame = self.frame(&layout, &moved)?;
        if self.a_join_is_open(&layout, &moved, &frame) {
            return Err(13);
        }
        let normalised: Vec<Vec<Uv>> = moved.iter().map(|ring| normalised(ring, &frame)).collect();
        let candidate = self.search(&normalised, &frame).ok_or(14u32)?;
        Ok(Chart {
            phase: if phase == 1 { PI } else { 0.0 },
            least: frame.least,
            scale: frame.scale,
            layout,
            moved,
            candidate,
        })
    }

    // Rule 1. Phase 1 only: v becomes ((v + PI + PI) rem TAU) − PI.

    fn turned(&self, layout: &Layout, phase: u32) -> Vec<Vec<Uv>> {
        let points = |ring: &Ring| ring.iter().flat_map(|c| c.points.clone()).collect();
        let mut rings: Vec<Vec<Uv>> = layout.rings.iter().map(points).collect();
        if phase == 1 {
            for point in rings.iter_mut().flatten() {
                point[1] = self.turn(point[1]);
            }
        }
        rings
    }

    fn turn(&self, v: f64) -> f64 {
        let rest = (v + PI + PI) % TAU;
        if rest < 0.0 && !self.is(Fault::PhaseRemainderKeepsSign) {
            (rest + TAU) - PI
        } else {
            rest - PI
        }
    }

    // Rule 2. Each point after a ring's first moves by whole turns toward the
    // moved point before it: u for kinds 1 to 4, v also for 4.

    fn moved(&self, ring: &[Uv], kind: u8) -> Vec<Uv> {
        let sphere_left = kind == 3 && self.is(Fault::SphereNotMoved);
        let axes = match kind {
            1..=3 if !sphere_left => 0..1,
            4 if self.is(Fault::TorusVNotMoved) => 0..1,
            4 => 0..2,
            _ => 0..0,
        };
        let mut moved: Vec<Uv> = Vec::with_capacity(ring.len());
        for (n, point) in ring.iter().enumerate() {
            let mut point = *point;
            if n > 0 {
                let toward = match self.fault {
                    Fault::MovedTowardFirst => moved[0],
                    Fault::MovedTowardPreviousAsRead => ring[n - 1],
                    _ => moved[n - 1],
                };
                for axis in axes.clone() {
                    point[axis] += self.whole((toward[axis] - point[axis]) / TAU) * TAU;
                }
            }
            moved.push(point);
        }
        moved
    }

    fn whole(&self, x: f64) -> f64 {
        if self.is(Fault::HalvesToEven) {
            x.round_ties_even()
        } else {
            round(x)
        }
    }

    /// The joins: each coedge's first point to the point before it, each ring's
    /// first to its last.
    fn joins(&self, layout: &Layout, moved: &[Vec<Uv>]) -> Vec<(Uv, Uv)> {
        let mut joins = Vec::new();
        for (index, (ring, points)) in layout.rings.iter().zip(moved).enumerate() {
            let mut first = 0;
            for coedge in &ring[..ring.len() - 1] {
                first += coedge.points.len();
                joins.push((points[first - 1], points[first]));
            }
            if index > 0 && self.is(Fault::JoinWithPreviousRing) {
                let before = &moved[index - 1];
                joins.push((before[before.len() - 1], points[0]));
            }
            if !self.is(Fault::ClosingJoinOmitted) {
                joins.push((points[0], points[points.len() - 1]));
            }
        }
        joins
    }

    // Rule 3. Box, torus band, periodic; checks 11 and 12.

    fn frame(&self, layout: &Layout, moved: &[Vec<Uv>]) -> Result<Frame, u32> {
        let (least, greatest) = bounds(moved);
        let mut scale = [greatest[0] - least[0], greatest[1] - least[1]];
        let uncapped = scale[0];
        let band = layout.kind == 4 && self.a_ring_goes_around(moved);
        let periodic = matches!(layout.kind, 1 | 2) || band;
        let pi_passes = self.is(Fault::BandVScalePiPasses) && scale[1] == PI;
        if band && scale[1] >= PI && !pi_passes {
            return Err(11);
        }
        if periodic && !self.is(Fault::UScaleNotCapped) {
            scale[0] = smaller_of(scale[0], TAU);
        }
        if periodic && self.is(Fault::VScaleCapped) {
            scale[1] = smaller_of(scale[1], TAU);
        }
        let narrow = |s: f64| s < 1e-12 || (s == 1e-12 && !self.is(Fault::ScaleAtLimitPasses));
        if narrow(scale[0]) || narrow(scale[1]) {
            return Err(12);
        }
        let measure = if self.is(Fault::PeriodFromUncappedScale) {
            uncapped
        } else {
            scale[0]
        };
        Ok(Frame {
            least,
            scale,
            uncapped,
            band,
            periodic,
            sense: layout.sense,
            period: TAU / measure,
        })
    }

    /// A ring whose first and last u differ by over PI.
    fn a_ring_goes_around(&self, moved: &[Vec<Uv>]) -> bool {
        let around = |ring: &Vec<Uv>| (ring[0][0] - ring[ring.len() - 1][0]).abs() > PI;
        if self.is(Fault::BandOnlyByFirstRing) {
            return around(&moved[0]);
        }
        moved.iter().any(around)
    }

    // Rule 4. Check 13: a join above 1e-4.

    fn a_join_is_open(&self, layout: &Layout, moved: &[Vec<Uv>], frame: &Frame) -> bool {
        let sphere = layout.kind == 3 && self.is(Fault::JoinTurnOnSphere);
        let turning = (frame.periodic && !self.is(Fault::JoinTurnOmitted)) || sphere;
        let measure = if self.is(Fault::JoinByUncappedScale) {
            frame.uncapped
        } else {
            frame.scale[0]
        };
        self.joins(layout, moved).iter().any(|(a, b)| {
            let mut u = a[0] - b[0];
            if turning {
                u -= self.whole(u / TAU) * TAU;
            }
            let join = hypot(u / measure, (a[1] - b[1]) / frame.scale[1]);
            join > 1e-4 || (join == 1e-4 && self.is(Fault::JoinAtLimitRefused))
        })
    }

    // Rules 6 and 9. The grid; the best so far starts at clearance 0 and is
    // replaced only by a greater one. Check 14.

    fn search(&self, rings: &[Vec<Uv>], frame: &Frame) -> Option<Candidate> {
        let mut best = Candidate {
            p: [0.0, 0.0],
            clearance: 0.0,
            count: 0,
        };
        let mut improvements = 0;
        for (i, j) in self.grid() {
            let p = [f64::from(i) / 32.0, f64::from(j) / 32.0];
            if !self.covered(rings, p, frame) {
                continue;
            }
            let clearance = self.clearance(rings, p, frame);
            if clearance > 0.01 || !self.is(Fault::CountOfClearPoints) {
                best.count += 1;
            }
            let equal = clearance == best.clearance && self.is(Fault::LastOfEqualClearances);
            if clearance > best.clearance || equal {
                best.p = p;
                best.clearance = clearance;
                improvements += 1;
            }
        }
        if self.is(Fault::CountOfImprovements) {
            best.count = improvements;
        }
        let at_limit = best.clearance == 0.01 && self.is(Fault::ClearanceAtLimitPasses);
        (best.clearance > 0.01 || at_limit).then_some(best)
    }

    /// (i, j), i from 1 to 31 outer, j likewise inner.
    fn grid(&self) -> impl Iterator<Item = (u32, u32)> {
        let v_outer = self.is(Fault::VOuterLoop);
        let columns = if self.is(Fault::GridWithoutLastColumn) {
            30
        } else {
            31
        };
        let pairs = (1..=31).flat_map(|outer| (1..=31).map(move |inner| (outer, inner)));
        pairs
            .map(move |(outer, inner)| {
                if v_outer {
                    (inner, outer)
                } else {
                    (outer, inner)
                }
            })
            .filter(move |(i, _)| *i <= columns)
    }

    // Rule 7. Coverage.

    fn covered(&self, rings: &[Vec<Uv>], p: Uv, frame: &Frame) -> bool {
        let by_winding = frame.periodic && (frame.band || !self.is(Fault::InsideOnCylinder));
        if !by_winding {
            let crossings = rings.iter().filter(|ring| self.inside(ring, p)).count();
            return crossings % 2 == 1 || (crossings > 0 && self.is(Fault::AnyRingCovers));
        }
        let winding = |ring: &Vec<Uv>| self.periodic_winding(ring, p, frame.period);
        let crossings: i32 = rings.iter().map(winding).sum();
        crossings % 2 != 0 && (!frame.band || self.on_its_side(crossings, frame.sense))
    }

    /// On a band: positive for sense 1, negative for sense 2, nothing for 0.
    fn on_its_side(&self, crossings: i32, sense: u8) -> bool {
        let sense = match (self.fault, sense) {
            (Fault::BandSignIgnored, 1 | 2) => return true,
            (Fault::BandSensesSwapped, 1 | 2) => 3 - sense,
            (Fault::BandAbsentSenseForward, 0) => 1,
            _ => sense,
        };
        match sense {
            1 => crossings > 0,
            2 => crossings < 0,
            _ => false,
        }
    }

    pub fn inside(&self, ring: &[Uv], p: Uv) -> bool {
        let at_or_above = self.is(Fault::InsideAtOrAbove);
        let at_or_left = self.is(Fault::InsideAtOrLeft);
        let above = |q: Uv| q[1] > p[1] || (at_or_above && q[1] == p[1]);
        let mut inside = false;
        let mut b = ring[ring.len() - 1];
        for &a in ring {
            if above(a) != above(b) {
                let u = (b[0] - a[0]) * (p[1] - a[1]) / (b[1] - a[1]) + a[0];
                if p[0] < u || (at_or_left && p[0] == u) {
                    inside = !inside;
                }
            }
            b = a;
        }
        inside
    }

    /// The crossings of one ring on a periodic chart.
    pub fn periodic_winding(&self, ring: &[Uv], p: Uv, period: f64) -> i32 {
        let mut winding = 0;
        for (a, read) in segments(ring) {
            let mut b = read;
            if !self.is(Fault::WindingBNotMoved) {
                b[0] += self.whole((a[0] - b[0]) / period) * period;
            }
            let far = if self.is(Fault::WindingByMidpointOfUnmovedB) {
                read[0]
            } else {
                b[0]
            };
            let w = p[0] + self.whole(((a[0] + far) / 2.0 - p[0]) / period) * period;
            if (a[0] > w) == (b[0] > w) {
                continue;
            }
            let v = a[1] + (b[1] - a[1]) * (w - a[0]) / (b[0] - a[0]);
            if p[1] > v || (p[1] == v && self.is(Fault::WindingAtOrAbove)) {
                winding += if b[0] > a[0] { 1 } else { -1 };
            }
        }
        winding
    }

    // Rule 8. Clearance: the least distance to a segment, from infinity.

    fn clearance(&self, rings: &[Vec<Uv>], p: Uv, frame: &Frame) -> f64 {
        let mut least = f64::INFINITY;
        for ring in rings {
            for (a, b) in segments(ring) {
                let (a, b) = self.nearest_copy(a, b, p, frame);
                least = smaller_of(least, self.distance(a, b, p));
            }
        }
        least
    }

    /// Periodic: b moves as in rule 7, then both by the offset of the midpoint.
    fn nearest_copy(&self, mut a: Uv, mut b: Uv, p: Uv, frame: &Frame) -> (Uv, Uv) {
        if !frame.periodic {
            return (a, b);
        }
        let period = frame.period;
        if !self.is(Fault::ClearanceBNotMoved) {
            b[0] += self.whole((a[0] - b[0]) / period) * period;
        }
        if !self.is(Fault::ClearanceOffsetOmitted) {
            let offset = self.whole((p[0] - (a[0] + b[0]) / 2.0) / period) * period;
            a[0] += offset;
            b[0] += offset;
        }
        (a, b)
    }

    fn distance(&self, a: Uv, b: Uv, p: Uv) -> f64 {
        let d = [b[0] - a[0], b[1] - a[1]];
        let length = d[0] * d[0] + d[1] * d[1];
        let along = (p[0] - a[0]) * d[0] + (p[1] - a[1]) * d[1];
        let t = self.parameter(along, length);
        hypot(p[0] - a[0] - t * d[0], p[1] - a[1] - t * d[1])
    }

    /// t = ((p − a)·d / d·d) clamped to 0..1, 0 if d·d is 0.
    pub(super) fn parameter(&self, along: f64, length: f64) -> f64 {
        if length > 0.0 {
            let t = along / length;
            if self.is(Fault::ParameterNotClamped) {
                t
            } else {
                clamp(t, 0.0, 1.0)
            }
        } else {
            0.0
        }
    }

    // The chart's answer.

    /// u = least + p.u × scale, v = least + p.v × scale − phase.
    pub(super) fn chart_point(&self, chart: &Chart) -> Uv {
        let p = chart.candidate.p;
        let at = |axis: usize| chart.least[axis] + p[axis] * chart.scale[axis];
        if self.is(Fault::PhaseKeptInAnswer) {
            return [at(0), at(1)];
        }
        [at(0), at(1) - chart.phase]
    }

    pub(super) fn chart_answer(&self, chart: &Chart) -> Answer {
        let [x, y] = self.chart_point(chart);
        Answer::Point {
            x,
            y,
            z: 0.0,
            clearance: chart.candidate.clearance,
            count: chart.candidate.count,
        }
    }

    /// Each moved point (u, v − phase), in order.
    pub(super) fn written<'a>(&self, chart: &'a Chart) -> impl Iterator<Item = Uv> + 'a {
        let kept = self.is(Fault::PhaseKeptInWrittenPoints);
        let phase = if kept { 0.0 } else { chart.phase };
        let as_read = self.is(Fault::ReadPointsWritten);
        let coedges = chart.layout.rings.iter().flatten();
        let read = coedges.flat_map(|coedge| &coedge.points);
        let moved = chart.moved.iter().flatten();
        read.zip(moved).map(move |(read, moved)| {
            if as_read {
                *read
            } else {
                [moved[0], moved[1] - phase]
            }
        })
    }

    /// The tail of the output keeps its contents.
    pub(super) fn write(&self, chart: &Chart, output: &mut [f64]) {
        for (pair, point) in output.chunks_exact_mut(2).zip(self.written(chart)) {
            pair.copy_from_slice(&point);
        }
    }
}

/// Least and greatest u and v over all rings.
fn bounds(rings: &[Vec<Uv>]) -> (Uv, Uv) {
    let mut least = [f64::INFINITY; 2];
    let mut greatest = [f64::NEG_INFINITY; 2];
    for point in rings.iter().flatten() {
        for axis in 0..2 {
            least[axis] = smaller_of(least[axis], point[axis]);
            greatest[axis] = larger_of(greatest[axis], point[axis]);
        }
    }
    (least, greatest)
}

/// Rule 5: (coordinate − least)/scale.
fn normalised(ring: &[Uv], frame: &Frame) -> Vec<Uv> {
    let at = |p: &Uv, axis: usize| (p[axis] - frame.least[axis]) / frame.scale[axis];
    ring.iter().map(|p| [at(p, 0), at(p, 1)]).collect()
}

/// Segments join each ring point to the next, the last to the first.
pub fn segments<P: Copy>(ring: &[P]) -> impl Iterator<Item = (P, P)> + '_ {
    let next = ring[1..].iter().chain(&ring[..1]);
    ring.iter().copied().zip(next.copied())
}
