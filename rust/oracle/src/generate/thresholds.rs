//! Cases at and beside every threshold of document 01.

use std::f64::consts::PI;

use super::Case;
use crate::plates::{dart, square};
use crate::rng::Rng;
use crate::sheet::{
    Plane, Ring, Sheet, Uv, CONE, CYLINDER, FORWARD, NURBS, OTHER, PLANE, REVERSED, SPHERE, TORUS,
};
use crate::surface::Surface;

/// The number itself, its two neighbours and two farther off.
pub fn beside(rng: &mut Rng, x: f64) -> f64 {
    rng.pick(&[x, x, x.next_up(), x.next_down(), x * 1.01, x * 0.99])
}

/// Check 12: a scale of 1e-12, in u or in v.
pub fn scale(rng: &mut Rng) -> Case {
    let width = beside(rng, 1e-12);
    let high = rng.pick(&[[width, 1.0], [1.0, width], [width, width]]);
    let kind = rng.pick(&[PLANE, CYLINDER, CONE, SPHERE, TORUS, NURBS, OTHER]);
    let sheet = Sheet::new(kind, FORWARD, vec![Ring::rectangle([0.0, 0.0], high)]);
    let mut case = Case::new(rng, sheet);
    if kind != PLANE {
        case.surface = Surface::Graph { factor: 1.0e8 };
    }
    case
}

/// Check 13: on a unit square, a ring's end or a coedge's end 1e-4 off.
pub fn join(rng: &mut Rng) -> Case {
    let gap = beside(rng, 1e-4);
    let gap = rng.pick(&[gap, gap, 2.0f64.powi(-13), 2.0f64.powi(-14)]);
    let kind = rng.pick(&[PLANE, CYLINDER, CONE, SPHERE, TORUS, NURBS, OTHER]);
    let mut ring = square(0.0, 1.0);
    match rng.below(3) {
        0 => ring.0[3].points[16] = [0.0, gap],
        1 => ring.0[3].points[16] = [gap, 0.0],
        _ => ring.0[0].points[16][0] = 1.0 - gap,
    }
    let sheet = Sheet::new(kind, FORWARD, vec![ring]);
    Case::new(rng, sheet)
}

/// Check 14: a best clearance of 0.01 or beside it.
pub fn clearance(rng: &mut Rng) -> Case {
    let target = rng.pick(&[0.01, 0.01f64.next_up(), 0.01f64.next_down()]);
    let rings = dart(point_at_distance(rng, target));
    let kind = rng.pick(&[PLANE, CYLINDER, SPHERE, TORUS, NURBS, OTHER]);
    let sheet = Sheet::new(kind, FORWARD, rings);
    Case::new(rng, sheet)
}

/// A point to the lower left of (0.5, 0.5), at exactly this computed distance.
/// About one try in a hundred meets it; the differences are exact.
fn point_at_distance(rng: &mut Rng, distance: f64) -> Uv {
    loop {
        let u = 0.5 - rng.between(0.4, 0.6) * distance;
        let du = 0.5 - u;
        let v = 0.5 - (distance * distance - du * du).sqrt();
        let dv = 0.5 - v;
        if (du * du + dv * dv).sqrt() == distance {
            return [u, v];
        }
    }
}

/// Check 11: a torus band with a v scale of PI.
pub fn band(rng: &mut Rng) -> Case {
    let height = beside(rng, PI);
    let flat = |v: f64| Ring::curve(1, |part| [2.0 * PI * part, v]);
    let rings = vec![flat(0.0), flat(height).reversed()];
    let sense = rng.pick(&[FORWARD, REVERSED]);
    Case::new(rng, Sheet::new(TORUS, sense, rings))
}

/// Check 15: a square whose middle is exactly 8 deviations, or 1e-7, away from
/// its sides.
pub fn space(rng: &mut Rng) -> Case {
    let reach = rng.pick(&[1e-7, 2.0f64.powi(-7), 2.0f64.powi(-9)]);
    let side = 2.0 * beside(rng, reach);
    let mut sheet = Sheet::flat(vec![Ring::rectangle([0.0, 0.0], [side, side])]);
    if reach > 1e-7 {
        sheet.set_deviation(reach / 8.0);
    }
    let mut case = Case::new(rng, sheet);
    case.sheet.plane = Plane::FLAT;
    case.surface = Surface::Plane(Plane::FLAT);
    case
}

/// Check 7: coordinates and origin of 2^20, axis components of 2, a deviation
/// just below 0.002; all pass.
pub fn numbers(rng: &mut Rng) -> Case {
    let far = 1_048_576.0;
    let near = rng.pick(&[-far, 0.0, far - 1.0, far - 1.0e-3]);
    let kind = rng.pick(&[PLANE, PLANE, CYLINDER, SPHERE, TORUS, NURBS]);
    let ring = Ring::rectangle([near, near], [far, far]);
    let mut case = Case::new(rng, Sheet::new(kind, FORWARD, vec![ring]));
    case.sheet.set_deviation(0.002f64.next_down());
    if kind == PLANE {
        case.sheet.plane = Plane {
            origin: [far, -far, far],
            u_axis: [2.0, -2.0, 2.0],
            normal: [2.0, 2.0, -2.0],
        };
        case.surface = Surface::Plane(case.sheet.plane);
    }
    case
}
