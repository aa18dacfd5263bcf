//! Seedable sheets: every kind, sense and phase, and the places where an easy
//! reading of document 01 goes wrong. The same seed gives the same case.

pub mod after;
mod calls;
mod damage;
mod faces;
mod families;
mod images;
mod shapes;
mod thresholds;

pub use calls::{calls, damaged_calls, reordered, Trial};
pub use faces::{face, Face};
pub(crate) use images::on_flat_plane;
pub use shapes::largest;

use crate::rng::Rng;
use crate::sheet::{Plane, Sheet, CONE, CYLINDER, PLANE, SPHERE, TORUS};
use crate::surface::Surface;

/// A sheet with what a call needs besides.
#[derive(Clone, Debug)]
pub struct Case {
    pub family: &'static str,
    pub sheet: Sheet,
    pub phase: u32,
    pub surface: Surface,
}

type Family = fn(&mut Rng) -> Case;

/// Every family with its share of the cases.
const FAMILIES: &[(&str, usize, Family)] = &[
    ("polygons", 8, families::polygons),
    ("holes", 6, families::holes),
    ("random walks", 3, families::random_walks),
    ("symmetric plates", 3, families::symmetric_plates),
    ("many rings", 1, families::many_rings),
    ("round patches", 8, families::round_patches),
    ("bands around", 9, families::bands_around),
    ("torus bands", 9, families::torus_bands),
    ("inner torus bands", 4, families::inner_torus_bands),
    ("wide torus bands", 2, families::wide_torus_bands),
    ("sphere rings", 2, families::sphere_rings),
    ("far charts", 2, families::far_charts),
    ("half turns", 2, families::half_turns),
    ("slivers", 3, families::slivers),
    ("zero width", 2, families::zero_width),
    ("open joins", 3, families::open_joins),
    ("too near in space", 4, families::too_near_in_space),
    ("negative zeros", 2, families::negative_zeros),
    ("clipped surfaces", 1, families::clipped_surfaces),
    ("scale at its limit", 1, thresholds::scale),
    ("join at its limit", 1, thresholds::join),
    ("clearance at its limit", 1, thresholds::clearance),
    ("band at its limit", 1, thresholds::band),
    ("space at its limit", 1, thresholds::space),
    ("numbers at their limit", 1, thresholds::numbers),
];

/// The case of a seed.
pub fn case(seed: u64) -> Case {
    let mut rng = Rng::new(seed);
    let total = FAMILIES.iter().map(|(_, share, _)| share).sum();
    let mut ticket = rng.below(total);
    for (name, share, family) in FAMILIES {
        if ticket < *share {
            let mut case = family(&mut rng);
            case.family = name;
            return case;
        }
        ticket -= share;
    }
    unreachable!("the ticket is below the sum of the shares")
}

impl Case {
    /// A surface and phase 0 for the sheet; the family's name is set by `case`.
    fn new(rng: &mut Rng, mut sheet: Sheet) -> Case {
        if sheet.kind == PLANE {
            sheet.plane = plane(rng);
        }
        Case {
            family: "",
            surface: surface_of(rng, sheet.kind, sheet.plane),
            sheet,
            phase: 0,
        }
    }
}

/// Flat, or any axes within the limits: nothing asks for unit length.
fn plane(rng: &mut Rng) -> Plane {
    if rng.once_in(3) {
        return Plane::FLAT;
    }
    let mut vector = |limit: f64| [0; 3].map(|_| rng.between(-limit, limit));
    Plane {
        origin: vector(100.0),
        u_axis: vector(2.0),
        normal: vector(2.0),
    }
}

/// A surface of the kind.
fn surface_of(rng: &mut Rng, kind: u8, plane: Plane) -> Surface {
    let radius = rng.between(0.5, 20.0);
    match kind {
        PLANE => Surface::Plane(plane),
        CYLINDER => Surface::Cylinder { radius },
        CONE => Surface::Cone {
            radius,
            growth: rng.between(-0.5, 0.5),
        },
        SPHERE => Surface::Sphere { radius },
        TORUS => Surface::Torus {
            major: 2.0 * radius,
            minor: rng.between(0.2, 1.0) * radius,
        },
        _ => Surface::Graph {
            factor: rng.between(0.5, 4.0),
        },
    }
}
