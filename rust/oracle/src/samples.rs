//! Sheets to try the program `facepoint` on: document 01's plates, and the front
//! panel of an emergency telephone. Circles go by a fraction of squares and not by
//! a sine, so that every machine makes the same bytes.

use crate::model::Answer;
use crate::plates::{plate_a, plate_b, plate_c};
use crate::sheet::{Coedge, Plane, Ring, Sheet, Uv, SAMPLES};

/// A sheet with the name of its files: NAME.sheet, and NAME.line for what
/// `facepoint` prints.
#[derive(Clone, Debug)]
pub struct Sample {
    pub name: &'static str,
    pub sheet: Sheet,
}

pub fn samples() -> Vec<Sample> {
    let sheets = [
        ("plate-a", plate_a()),
        ("plate-b", plate_b()),
        ("plate-c", plate_c()),
        ("panel", panel()),
    ];
    sheets.map(|(name, sheet)| Sample { name, sheet }).into()
}

/// The whole output of `facepoint` for this answer of the plane pick.
pub fn line(answer: &Answer) -> String {
    match *answer {
        Answer::Refused(number) => format!("{number}\n"),
        Answer::Point { count, .. } => {
            let (_, [x, y, z, clearance, _]) = answer.numbers();
            format!("0 {x:016X} {y:016X} {z:016X} {clearance:016X} {count}\n")
        }
    }
}

/// The front panel, in metres: 0.16 wide and 0.24 high with rounded corners, a round
/// speaker cutout, a display window, a call button, a slot for the microphone and
/// four screw holes. It stands askew in the room. Holes run against the outside.
pub fn panel() -> Sheet {
    let mut rings = vec![rounded([0.01, 0.01], [0.15, 0.23], 0.01)];
    let holes = [
        circle([0.08, 0.186], 0.034),
        rounded([0.033, 0.107], [0.087, 0.131], 0.003),
        circle([0.122, 0.119], 0.014),
        rounded([0.063, 0.031], [0.097, 0.031], 0.003),
        circle([0.01, 0.01], 0.0025),
        circle([0.15, 0.01], 0.0025),
        circle([0.15, 0.23], 0.0025),
        circle([0.01, 0.23], 0.0025),
    ];
    rings.extend(holes.map(Ring::reversed));
    let third = |numbers: [f64; 3]| numbers.map(|x| x / 3.0);
    let mut sheet = Sheet::flat(rings);
    sheet.plane = Plane {
        origin: [1.25, 0.4, 1.1],
        u_axis: third([2.0, 2.0, -1.0]),
        normal: third([-1.0, 2.0, 2.0]),
    };
    sheet
}

/// A quarter of the circle from the direction `quarter` on, counter-clockwise, with
/// its true deviation: how far the arc stands off the widest of its chords.
fn arc(centre: Uv, radius: f64, quarter: usize) -> Coedge {
    let points: [Uv; SAMPLES] = std::array::from_fn(|n| {
        let t = n as f64 / 16.0;
        let square = t * t;
        let (c, s) = ((1.0 - square) / (1.0 + square), 2.0 * t / (1.0 + square));
        let [u, v] = [[c, s], [-s, c], [-c, -s], [s, -c]][quarter];
        [centre[0] + radius * u, centre[1] + radius * v]
    });
    let off_chord = |pair: &[Uv]| {
        let middle = [0, 1].map(|k| (pair[0][k] + pair[1][k]) / 2.0 - centre[k]);
        radius - (middle[0] * middle[0] + middle[1] * middle[1]).sqrt()
    };
    Coedge {
        deviation: points.windows(2).map(off_chord).fold(0.0, f64::max),
        points,
    }
}

fn circle(centre: Uv, radius: f64) -> Ring {
    Ring((0..4).map(|quarter| arc(centre, radius, quarter)).collect())
}

/// What lies within `radius` of the rectangle from `low` to `high`: a rectangle with
/// rounded corners, or a slot where the two have the same v.
fn rounded(low: Uv, high: Uv, radius: f64) -> Ring {
    let corners = [high, [low[0], high[1]], low, [high[0], low[1]]];
    let arcs: Vec<Coedge> = (0..4).map(|k| arc(corners[k], radius, k)).collect();
    let mut ring = Vec::new();
    for (k, arc) in arcs.iter().enumerate() {
        let (from, to) = (arc.points[SAMPLES - 1], arcs[(k + 1) % 4].points[0]);
        ring.push(arc.clone());
        if from != to {
            ring.push(Coedge::line(from, to));
        }
    }
    Ring(ring)
}
