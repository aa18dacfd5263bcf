//! The sheets that are measured. Those of document 01 are its plates; the largest
//! have 16 rings of 8 coedges each, which is 136 segments a ring and 2176 in all; the
//! small ones are faces as most of a model's are, of 4 or 5 coedges.

use std::f64::consts::{FRAC_PI_2, PI, TAU};

use crate::plates::{plate_a, plate_b};
use crate::sheet::{Coedge, Ring, Sheet, Uv, CONE, CYLINDER, FORWARD, NURBS, PLANE, SPHERE, TORUS};
use crate::surface::Surface;

/// Coedges of a ring of the largest sheets.
const COEDGES: usize = 8;
/// Sheets of a series: 68, 136, 272, 544, 1088 and 2176 segments.
pub const SIZES: usize = 6;

/// A sheet with the surface that its points are evaluated on, at phase 0.
#[derive(Clone, Debug)]
pub struct Subject {
    pub name: String,
    pub sheet: Sheet,
    pub surface: Surface,
}

impl Subject {
    fn plane(name: &str, sheet: Sheet) -> Subject {
        Subject {
            name: name.into(),
            surface: Surface::Plane(sheet.plane),
            sheet,
        }
    }

    fn curved(name: &str, kind: u8, rings: Vec<Ring>, surface: Surface) -> Subject {
        Subject {
            name: name.into(),
            sheet: Sheet::new(kind, FORWARD, rings),
            surface,
        }
    }

    pub fn is_plane(&self) -> bool {
        self.sheet.kind == PLANE
    }

    /// As many as points: each is joined to the next, the last to the first.
    pub fn segments(&self) -> usize {
        self.sheet.point_count()
    }
}

/// The six sheets whose ratios are asked for.
pub fn six() -> [Subject; 6] {
    [
        Subject::plane("plate A", plate_a()),
        Subject::plane("plate B", plate_b()),
        Subject::plane("largest plane", plate_with_holes(COEDGES, 15, 0.1)),
        Subject::plane("15 small holes", plate_with_holes(COEDGES, 15, 0.02)),
        Subject::curved(
            "largest cylinder",
            CYLINDER,
            band_with_holes(),
            Surface::Cylinder { radius: 2.0 },
        ),
        Subject::curved(
            "largest torus band",
            TORUS,
            band_with_holes(),
            Surface::Torus {
                major: 5.0,
                minor: 2.0,
            },
        ),
    ]
}

/// Six small curved faces, beside the six: printed, and no ratio of theirs is asked for.
pub fn six_small() -> [Subject; 6] {
    let tube = Surface::Cylinder { radius: 2.0 };
    let cone = Surface::Cone {
        radius: 2.0,
        growth: -0.5,
    };
    let ball = Surface::Sphere { radius: 2.0 };
    let fillet = Surface::Torus {
        major: 5.0,
        minor: 0.5,
    };
    let waves = Surface::Graph { factor: 2.0 };
    let around = |height: f64| Ring::rectangle([0.0, 0.0], [TAU, height]);
    let halves = |v: f64| {
        let [from, middle, to] = [[0.0, v], [PI, v], [TAU, v]];
        Ring(vec![Coedge::line(from, middle), Coedge::line(middle, to)])
    };
    let octant = Ring::rectangle([0.0, 0.0], [FRAC_PI_2, FRAC_PI_2]);
    let quarter = Ring::rectangle([0.0, -PI], [FRAC_PI_2, -FRAC_PI_2]);
    let five = [[0.1, 0.0], [0.8, 0.1], [1.0, 0.6], [0.5, 1.0], [0.0, 0.7]];
    [
        Subject::curved("cylinder with seam", CYLINDER, vec![around(3.0)], tube),
        Subject::curved(
            "half cylinder",
            CYLINDER,
            vec![Ring::rectangle([0.0, 0.0], [PI, 3.0])],
            tube,
        ),
        Subject::curved(
            "cone",
            CONE,
            vec![halves(0.0), halves(1.5).reversed()],
            cone,
        ),
        Subject::curved("sphere octant", SPHERE, vec![octant], ball),
        Subject::curved("torus fillet", TORUS, vec![quarter], fillet),
        Subject::curved("NURBS patch", NURBS, vec![Ring::polygon(&five)], waves),
    ]
}

/// 68 segments, and twice as many in each sheet that follows, up to 2176: a plate
/// with 0, 1, 3, 7 and 15 holes, every ring of 4 coedges; at last all have 8.
pub fn by_rings() -> [Subject; SIZES] {
    let sizes = [(4, 0), (4, 1), (4, 3), (4, 7), (4, 15), (8, 15)];
    let subject = |(coedges, holes): (usize, usize)| {
        let name = format!("{} × {coedges} coedges, square and holes", holes + 1);
        Subject::plane(&name, plate_with_holes(coedges, holes, 0.05))
    };
    sizes.map(subject)
}

/// The same numbers of segments in one ring: a circle in 4 to 128 coedges. It covers
/// nearly the same part of the grid each time, so that only their number grows.
pub fn by_coedges() -> [Subject; SIZES] {
    let subject = |doublings: usize| {
        let coedges = 4 << doublings;
        let name = format!("1 × {coedges} coedges, circle");
        let ring = circle(coedges, [0.5, 0.5], 0.5);
        Subject::plane(&name, Sheet::flat(vec![ring]))
    };
    std::array::from_fn(subject)
}

/// The unit square with up to 15 round holes, which run against it. They lie on four
/// rows of four places, from below and from the left; the last place stays free.
fn plate_with_holes(coedges: usize, holes: usize, radius: f64) -> Sheet {
    let place = |k: usize| [k % 4, k / 4].map(|n| 0.125 + 0.25 * n as f64);
    let hole = |k: usize| circle(coedges, place(k), radius).reversed();
    let outer = Ring::square(coedges, [0.5, 0.5], 0.5);
    Sheet::flat([outer].into_iter().chain((0..holes).map(hole)).collect())
}

/// Two rings around, the upper one reversed, 2.6 apart: a torus band must stay below
/// PI. Between them two rows of seven round holes; the first of each row lies across
/// the seam u = 0. The face is to the left of its trims, as sense 1 asks on a torus.
pub(crate) fn band_with_holes() -> Vec<Ring> {
    let around = |v: f64| Ring::curve(COEDGES, |part| [TAU * part, v]);
    let place = |k: usize| [TAU / 7.0 * (k % 7) as f64, 0.85 + 1.3 * (k / 7) as f64];
    let hole = |k: usize| circle(COEDGES, place(k), 0.3).reversed();
    let outer = [around(0.2), around(2.8).reversed()];
    outer.into_iter().chain((0..14).map(hole)).collect()
}

pub(crate) fn circle(coedges: usize, centre: Uv, radius: f64) -> Ring {
    Ring::curve(coedges, |part| {
        let angle = TAU * part.fract();
        [
            centre[0] + radius * angle.cos(),
            centre[1] + radius * angle.sin(),
        ]
    })
}
