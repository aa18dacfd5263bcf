//! Faces as the original's `point` meets them: the sheet of a case with its surface,
//! and triangles on spheres.

use super::after::trial;
use super::case;
use super::shapes::{star, wrapped, Placement};
use crate::after::{Call, Triangle};
use crate::rng::Rng;
use crate::sheet::{Sheet, SPHERE};
use crate::surface::Surface;

/// One face in so many is a triangle.
const TRIANGLES: u64 = 6;

#[derive(Clone, Debug)]
pub struct Face {
    pub sheet: Sheet,
    pub surface: Surface,
    /// Its one ring as three sides on circles.
    pub triangle: Option<Triangle>,
}

/// The face of a seed. Its numbers are within document 01's limits.
pub fn face(seed: u64) -> Face {
    if seed.is_multiple_of(TRIANGLES) {
        return triangle(seed);
    }
    let case = case(seed);
    Face {
        sheet: case.sheet,
        surface: case.surface,
        triangle: None,
    }
}

/// The sides of a triangle, of which many are refused, and a ring of three coedges in
/// the chart, which is looked at then.
fn triangle(seed: u64) -> Face {
    let trials = (0..).map(|k| trial(Call::SphericalTriangle, seed + (k << 32)));
    let mut within_limits = trials.filter(|trial| trial.known.is_none());
    let given = within_limits.next().expect("most are").given;
    let rng = &mut Rng::new(!seed);
    let ring = Placement::any(rng).ring(star(rng, 3));
    let sense = u8::try_from(given.whole).expect("within the limits");
    let mut sheet = Sheet::new(SPHERE, sense, vec![wrapped(ring, SPHERE)]);
    sheet.set_deviation(rng.pick(&[0.0, 1e-6, 0.001]));
    let triangle = Triangle::read(&given);
    Face {
        sheet,
        surface: Surface::Sphere {
            radius: triangle.radius,
        },
        triangle: Some(triangle),
    }
}
