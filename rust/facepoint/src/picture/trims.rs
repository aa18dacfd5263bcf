//! Document 01's rules 1 to 8 in plain Rust: the trims in the unit box, and which of
//! the grid points lie on the face, how clear of the trims.

use std::f64::consts::{PI, TAU};

use crate::{Face, Kind, Phase, Ring, Sense, Uv};

/// The greatest magnitude of a chart coordinate, by check 7.
const FARTHEST: f64 = 1_048_576.0;

/// A face's trims, moved (rules 1 and 2) and normalised (rule 5).
pub(super) struct Trims {
    pub(super) rings: Vec<Vec<Uv>>,
    /// Least u and v of the box.
    pub(super) low: Uv,
    pub(super) scale: Uv,
    /// The period of u in the unit box, where coverage goes by the winding.
    pub(super) period: Option<f64>,
    /// The torus band, where the winding's sign has to be the sense's.
    band: Option<Sense>,
    /// The points left out, which no check lets pass.
    pub(super) left_out: usize,
}

/// A point of the grid in the unit box, with its clearance where it is on the face.
#[derive(Clone, Copy, Debug, PartialEq)]
pub(super) struct GridPoint {
    pub(super) place: Uv,
    pub(super) clearance: Option<f64>,
}

impl Trims {
    pub(super) fn of(face: &Face, phase: Phase) -> Trims {
        let mut rings: Vec<Vec<Uv>> = face
            .rings
            .iter()
            .map(|ring| moved(ring, face.kind, phase))
            .collect();
        let all = face.rings.iter().flat_map(|ring| &ring.coedges);
        let all: usize = all.map(|coedge| coedge.points.len()).sum();
        let left_out = all - rings.iter().map(Vec::len).sum::<usize>();

        let goes_around = |ring: &Vec<Uv>| match (ring.first(), ring.last()) {
            (Some(first), Some(last)) => (first[0] - last[0]).abs() > PI,
            _ => false,
        };
        let band = face.kind == Kind::Torus && rings.iter().any(goes_around);
        let periodic = band || matches!(face.kind, Kind::Cylinder | Kind::Cone);

        let [low, scale] = box_of(&rings, periodic);
        for point in rings.iter_mut().flatten() {
            *point = [0, 1].map(|axis| (point[axis] - low[axis]) / scale[axis]);
        }
        Trims {
            rings,
            low,
            scale,
            period: periodic.then_some(TAU / scale[0]),
            band: band.then_some(face.sense),
            left_out,
        }
    }

    /// Rule 6: u outer, v inner.
    pub(super) fn grid(&self) -> Vec<GridPoint> {
        let places = (1..32).flat_map(|i| (1..32).map(move |j| [i, j].map(f64::from)));
        let point = |place: Uv| GridPoint {
            place,
            clearance: self.covers(place).then(|| self.clearance(place)),
        };
        places.map(|place| point(place.map(|k| k / 32.0))).collect()
    }

    /// Rule 7.
    fn covers(&self, p: Uv) -> bool {
        let Some(period) = self.period else {
            let around = self.rings.iter().filter(|ring| inside(ring, p));
            return around.count() % 2 == 1;
        };
        let winding: i32 = self
            .segments()
            .map(|(a, b)| crossing(a, beside(a, b, period), p, period))
            .sum();
        let signed = match self.band {
            None => true,
            Some(Sense::Forward) => winding > 0,
            Some(Sense::Reversed) => winding < 0,
            Some(Sense::Absent) => false,
        };
        winding % 2 != 0 && signed
    }

    /// Rule 8.
    fn clearance(&self, p: Uv) -> f64 {
        let distance = |(a, b): (Uv, Uv)| match self.period {
            None => distance(p, a, b),
            Some(period) => {
                let b = beside(a, b, period);
                let shift = ((p[0] - (a[0] + b[0]) / 2.0) / period).round() * period;
                distance(p, [a[0] + shift, a[1]], [b[0] + shift, b[1]])
            }
        };
        let distances = self.segments().map(distance);
        distances.fold(f64::INFINITY, |least, d| if d < least { d } else { least })
    }

    /// Each ring point with the next, the last with the first.
    fn segments(&self) -> impl Iterator<Item = (Uv, Uv)> + '_ {
        self.rings.iter().flat_map(|ring| segments(ring))
    }

    /// The lines to draw of a ring: around a period each segment in every copy that
    /// touches the box, else the polygon.
    pub(super) fn lines(&self, ring: &[Uv]) -> Vec<Vec<Uv>> {
        let Some(period) = self.period else {
            return vec![ring.iter().chain(ring.first()).copied().collect()];
        };
        let mut lines: Vec<Vec<Uv>> = Vec::new();
        for (a, b) in segments(ring) {
            let b = beside(a, b, period);
            let nearest = ((0.5 - (a[0] + b[0]) / 2.0) / period).round();
            for turns in [nearest - 1.0, nearest, nearest + 1.0] {
                let [a, b] = [a, b].map(|p| [p[0] + turns * period, p[1]]);
                if a[0].max(b[0]) < 0.0 || a[0].min(b[0]) > 1.0 {
                    continue;
                }
                match lines.last_mut() {
                    Some(line) if line.last() == Some(&a) => line.push(b),
                    _ => lines.push(vec![a, b]),
                }
            }
        }
        lines
    }
}

/// Rules 1 and 2 over a ring's points, without those that check 7 refuses.
fn moved(ring: &Ring, kind: Kind, phase: Phase) -> Vec<Uv> {
    let angles = match kind {
        Kind::Cylinder | Kind::Cone | Kind::Sphere => [true, false],
        Kind::Torus => [true, true],
        Kind::Plane(_) | Kind::Nurbs | Kind::Other => [false, false],
    };
    let mut points: Vec<Uv> = Vec::new();
    for point in ring.coedges.iter().flat_map(|coedge| coedge.points) {
        if !point.iter().all(|x| x.abs() <= FARTHEST) {
            continue;
        }
        // A sum with +0 reads a −0 as +0.
        let mut point = point.map(|x| x + 0.0);
        if phase == Phase::One {
            point[1] = (point[1] + PI + PI).rem_euclid(TAU) - PI;
        }
        if let Some(previous) = points.last() {
            for axis in [0, 1] {
                if angles[axis] {
                    point[axis] += ((previous[axis] - point[axis]) / TAU).round() * TAU;
                }
            }
        }
        points.push(point);
    }
    points
}

/// Rule 3's least u and v, and the scales; periodic caps that of u. A box without width,
/// which check 12 refuses, is widened to both sides.
fn box_of(rings: &[Vec<Uv>], periodic: bool) -> [Uv; 2] {
    let mut least = [0.0; 2];
    let mut scale = [0.0; 2];
    for axis in [0, 1] {
        let all = || rings.iter().flatten().map(|point| point[axis]);
        if let (Some(low), Some(high)) = (all().reduce(f64::min), all().reduce(f64::max)) {
            least[axis] = low;
            scale[axis] = high - low;
        }
    }
    if periodic && TAU < scale[0] {
        scale[0] = TAU;
    }
    for axis in [0, 1] {
        if scale[axis] <= 1e-12 {
            least[axis] -= 0.5;
            scale[axis] = 1.0;
        }
    }
    [least, scale]
}

fn segments(ring: &[Uv]) -> impl Iterator<Item = (Uv, Uv)> + '_ {
    ring.iter()
        .copied()
        .zip(ring.iter().copied().cycle().skip(1))
}

/// b in the copy that lies nearest to a.
fn beside(a: Uv, b: Uv, period: f64) -> Uv {
    [b[0] + ((a[0] - b[0]) / period).round() * period, b[1]]
}

/// `inside` of rule 7.
fn inside(ring: &[Uv], p: Uv) -> bool {
    let before = ring.iter().cycle().skip(ring.len().saturating_sub(1));
    ring.iter().zip(before).fold(false, |inside, (a, b)| {
        let between = (a[1] > p[1]) != (b[1] > p[1]);
        let flips = between && p[0] < (b[0] - a[0]) * (p[1] - a[1]) / (b[1] - a[1]) + a[0];
        inside != flips
    })
}

/// A segment's share of the winding, rule 7.
fn crossing(a: Uv, b: Uv, p: Uv, period: f64) -> i32 {
    let w = p[0] + (((a[0] + b[0]) / 2.0 - p[0]) / period).round() * period;
    let between = (a[0] > w) != (b[0] > w);
    if between && p[1] > a[1] + (b[1] - a[1]) * (w - a[0]) / (b[0] - a[0]) {
        return if b[0] > a[0] { 1 } else { -1 };
    }
    0
}

/// From p to the segment, rule 8.
fn distance(p: Uv, a: Uv, b: Uv) -> f64 {
    let d = [b[0] - a[0], b[1] - a[1]];
    let length = d[0] * d[0] + d[1] * d[1];
    let t = if length > 0.0 {
        (((p[0] - a[0]) * d[0] + (p[1] - a[1]) * d[1]) / length).clamp(0.0, 1.0)
    } else {
        0.0
    };
    hypot(p[0] - a[0] - t * d[0], p[1] - a[1] - t * d[1])
}

/// The document's, which rounds each operation; `f64::hypot` does not.
fn hypot(a: f64, b: f64) -> f64 {
    (a * a + b * b).sqrt()
}

#[cfg(test)]
mod tests {
    use std::f64::consts::{PI, TAU};

    use super::Trims;
    use crate::{chart, Chart, Coedge, Face, Kind, Phase, Plane, Refusal, Ring, Sense, Sheet, Uv};

    fn sample(name: &str) -> Face {
        let folder = concat!(env!("CARGO_MANIFEST_DIR"), "/../../samples");
        let sheet = Sheet::from_file(format!("{folder}/{name}.sheet")).expect("a sample");
        sheet.face().expect("a layout that reads")
    }

    /// Rings around at these heights, each against the one before.
    fn bands(kind: Kind, sense: Sense, start: f64, heights: &[f64]) -> Face {
        let mut face = Face::new(kind, sense);
        for (k, v) in heights.iter().enumerate() {
            let ring = Ring::from(vec![Coedge::line([start, *v], [start + TAU, *v])]);
            face = face.ring(if k % 2 == 0 { ring } else { ring.reversed() });
        }
        face
    }

    /// A window whose left side is at `u`, with a slanted hole.
    fn window(kind: Kind, u: f64) -> Face {
        let corners = |points: [Uv; 4]| Ring::polygon(&points.map(|[x, v]| [u + x, v]));
        Face::new(kind, Sense::Reversed)
            .ring(corners([[0.0, 0.0], [1.5, 0.1], [1.3, 1.0], [0.2, 0.8]]))
            .ring(corners([[0.5, 0.3], [0.9, 0.35], [0.8, 0.6], [0.5, 0.5]]))
    }

    /// Turns the points of the trims' second half by whole turns, as a modeller may.
    fn turned(mut face: Face, axis: usize) -> Face {
        for ring in &mut face.rings {
            let points = ring
                .coedges
                .iter_mut()
                .flat_map(|coedge| &mut coedge.points);
            points.skip(8).for_each(|point| point[axis] -= TAU);
        }
        face
    }

    fn faces() -> Vec<Face> {
        let mut faces = ["plate-a", "plate-b", "plate-c", "panel"]
            .map(sample)
            .to_vec();
        for kind in [Kind::Cylinder, Kind::Cone, Kind::Torus] {
            for sense in [Sense::Forward, Sense::Reversed, Sense::Absent] {
                faces.push(bands(kind, sense, 0.3, &[0.0, 1.0]));
                faces.push(bands(kind, sense, -2.0, &[1.0, 0.4, 2.0]));
                faces.push(turned(bands(kind, sense, 5.0, &[0.5, 1.5]), 0));
            }
            faces.push(bands(kind, Sense::Forward, 0.0, &[2.8, -2.8]));
        }
        for kind in [
            Kind::Plane(Plane::XY),
            Kind::Cylinder,
            Kind::Cone,
            Kind::Sphere,
            Kind::Torus,
            Kind::Nurbs,
            Kind::Other,
        ] {
            faces.extend([0.0, -0.75, 3.0].map(|u| window(kind, u)));
        }
        for kind in [Kind::Cylinder, Kind::Sphere, Kind::Torus] {
            faces.push(turned(window(kind, 5.5), 0));
        }
        faces.push(turned(window(Kind::Torus, 1.0), 1));
        faces
    }

    /// Holds points, count, clearance and choice against an answer, bit for bit.
    fn hold(face: &Face, phase: Phase, chart: &Chart) {
        let shift = if phase == Phase::One { PI } else { 0.0 };
        let moved = face.rings.iter();
        let moved = moved.flat_map(|ring| super::moved(ring, face.kind, phase));
        let moved: Vec<Uv> = moved.map(|[u, v]| [u, v - shift]).collect();
        assert_eq!(moved, chart.points);

        let trims = Trims::of(face, phase);
        let (mut count, mut chosen, mut greatest) = (0, [0.0; 2], 0.0);
        for point in trims.grid() {
            let Some(clearance) = point.clearance else {
                continue;
            };
            count += 1;
            if clearance > greatest {
                (chosen, greatest) = (point.place, clearance);
            }
        }
        assert_eq!(count, chart.count);
        assert_eq!(greatest.to_bits(), chart.clearance.to_bits());
        let at = |axis: usize| trims.low[axis] + chosen[axis] * trims.scale[axis];
        assert_eq!([at(0), at(1) - shift], chart.uv);
    }

    #[test]
    fn trims_and_grid_are_the_charts() {
        let mut answers = [0; 2];
        for face in faces() {
            let sheet = face.sheet().expect("few rings");
            for (phase, answers) in [Phase::Zero, Phase::One].into_iter().zip(&mut answers) {
                match chart(&sheet, phase) {
                    Ok(chart) => {
                        hold(&face, phase, &chart);
                        *answers += 1;
                    }
                    Err(Refusal::NoneClear) => {
                        let grid = Trims::of(&face, phase).grid();
                        let mut clearances = grid.iter().filter_map(|point| point.clearance);
                        assert!(clearances.all(|clearance| clearance <= 0.01));
                    }
                    Err(_) => {}
                }
            }
        }
        assert!(answers[0] > 30 && answers[1] > 8, "{answers:?}");
    }

    /// What no check lets pass is left out, and the rest has its place in the box.
    #[test]
    fn numbers_beyond_the_limits_are_left_out() {
        let mut face = sample("plate-a");
        let points = &mut face.rings[0].coedges[1].points;
        points[3][0] = f64::NAN;
        points[4][1] = f64::NEG_INFINITY;
        points[5][0] = 1e300;
        let trims = Trims::of(&face, Phase::Zero);
        assert_eq!(trims.left_out, 3);
        assert_eq!((trims.low, trims.scale), ([0.0; 2], [1.0; 2]));
        let line = Face::new(Kind::Other, Sense::Absent).ring(Ring::polygon(&[[3.0, 5.0]; 2]));
        let trims = Trims::of(&line, Phase::Zero);
        assert!(trims.rings[0].iter().all(|point| *point == [0.5; 2]));
        let none = Trims::of(&Face::new(Kind::Other, Sense::Absent), Phase::Zero);
        assert_eq!((none.low, none.scale), ([-0.5; 2], [1.0; 2]));
    }

    /// A ring around, drawn from seam to seam: every copy that touches the box.
    #[test]
    fn rings_around_reach_both_sides_of_the_box() {
        let face = bands(Kind::Cylinder, Sense::Forward, 5.0, &[0.0, 1.0]);
        let trims = Trims::of(&face, Phase::Zero);
        for ring in &trims.rings {
            let lines = trims.lines(ring);
            let us: Vec<f64> = lines.iter().flatten().map(|point| point[0]).collect();
            assert!(us.iter().any(|u| *u <= 0.0) && us.iter().any(|u| *u >= 1.0));
        }
    }
}
