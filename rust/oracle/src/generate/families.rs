//! The families of cases, by what they are meant to meet.

use std::f64::consts::{PI, TAU};

use super::shapes::{any_ring, around, blob, put, star, walk, wrapped, Placement};
use super::Case;
use crate::rng::Rng;
use crate::sheet::{
    Ring, Sheet, Uv, ABSENT, CONE, CYLINDER, FORWARD, NURBS, OTHER, PLANE, REVERSED, SPHERE, TORUS,
};
use crate::surface::Surface;

const SENSES: [u8; 3] = [ABSENT, FORWARD, REVERSED];
const EVEN_CHARTS: [u8; 4] = [PLANE, PLANE, NURBS, OTHER];
const ROUND: [u8; 5] = [CYLINDER, CONE, SPHERE, TORUS, TORUS];

fn sheet(rng: &mut Rng, kinds: &[u8], rings: Vec<Ring>) -> Sheet {
    let kind = rng.pick(kinds);
    Sheet::new(kind, rng.pick(&SENSES), rings)
}

/// One ring on a chart that is not periodic.
pub fn polygons(rng: &mut Rng) -> Case {
    let placement = Placement::any(rng);
    let ring = placement.ring(any_ring(rng));
    let sheet = sheet(rng, &EVEN_CHARTS, vec![ring]);
    Case::new(rng, sheet)
}

/// A ring with holes, in any order; some leave the ring or cross another.
pub fn holes(rng: &mut Rng) -> Case {
    let rings = ring_with_holes(rng);
    let sheet = sheet(rng, &EVEN_CHARTS, rings);
    Case::new(rng, sheet)
}

fn ring_with_holes(rng: &mut Rng) -> Vec<Ring> {
    let placement = Placement::any(rng);
    let mut rings = vec![any_ring(rng)];
    for _ in 0..rng.whole(1, 3) {
        let size = rng.between(0.05, 0.5);
        let centre = [rng.between(-0.6, 0.6), rng.between(-0.6, 0.6)];
        rings.push(put(any_ring(rng), centre, size));
    }
    rng.shuffle(&mut rings);
    rings.into_iter().map(|ring| placement.ring(ring)).collect()
}

pub fn random_walks(rng: &mut Rng) -> Case {
    let rings = (0..rng.whole(1, 2)).map(|_| {
        let coedges = rng.whole(1, 2);
        walk(rng, coedges)
    });
    let rings = rings.collect();
    let sheet = sheet(rng, &[PLANE, CYLINDER, SPHERE, TORUS, OTHER], rings);
    Case::new(rng, sheet)
}

/// Sides on lines of the grid, so that many clearances are equal and grid
/// points lie on sides and level with corners.
pub fn symmetric_plates(rng: &mut Rng) -> Case {
    let mut rings = vec![Ring::rectangle([0.0, 0.0], [1.0, 1.0])];
    match rng.below(4) {
        0 => rings.extend((0..rng.below(3)).map(|_| centred_hole(rng))),
        1 => rings.push(on_grid(&[[1, 1], [31, 9], [20, 16], [31, 30], [4, 24]])),
        2 => {
            let k = rng.whole(1, 4);
            rings.push(on_grid(&[
                [k, k],
                [16 - k, k],
                [16 - k, 16 - k],
                [k, 16 - k],
            ]));
            // The same on the other side of the middle.
            let other = rings[1].clone();
            rings.push(put(other, [0.5, 0.5], 1.0));
        }
        _ => {
            let k = rng.whole(9, 22);
            rings.push(on_grid(&[[4, 6], [24, 6], [k, 20], [8, 20]]));
        }
    }
    if rng.once_in(2) {
        rings = rings.into_iter().map(Ring::reversed).collect();
    }
    rng.shuffle(&mut rings);
    let sheet = sheet(rng, &[PLANE, CYLINDER, CONE, SPHERE, TORUS, NURBS], rings);
    Case::new(rng, sheet)
}

fn centred_hole(rng: &mut Rng) -> Ring {
    let low = [rng.whole(1, 14), rng.whole(1, 14)].map(|k| k as f64 / 32.0);
    let hole = Ring::rectangle(low, low.map(|x| 1.0 - x));
    if rng.once_in(2) {
        hole.reversed()
    } else {
        hole
    }
}

/// A polygon with its corners on grid points of the unit square.
fn on_grid(corners: &[[usize; 2]]) -> Ring {
    let corners = corners.iter().map(|p| p.map(|k| k as f64 / 32.0));
    Ring::polygon(&corners.collect::<Vec<Uv>>())
}

/// Up to 16 rings.
pub fn many_rings(rng: &mut Rng) -> Case {
    let mut rings = vec![Ring::rectangle([0.0, 0.0], [1.0, 1.0])];
    for _ in 0..rng.whole(4, 15) {
        let size = rng.between(0.01, 0.08);
        let centre = [rng.between(0.1, 0.9), rng.between(0.1, 0.9)];
        rings.push(put(blob(rng, 1), centre, size));
    }
    rng.shuffle(&mut rings);
    let sheet = sheet(rng, &EVEN_CHARTS, rings);
    Case::new(rng, sheet)
}

/// Patches of round surfaces that do not go around; most cross a seam.
pub fn round_patches(rng: &mut Rng) -> Case {
    let kind = rng.pick(&ROUND);
    let mut rings = ring_with_holes(rng);
    if rng.once_in(2) {
        rings.truncate(1);
    }
    let rings = rings.into_iter().map(|ring| wrapped(ring, kind)).collect();
    let sheet = sheet(rng, &[kind], rings);
    let mut case = Case::new(rng, sheet);
    case.phase = phase(rng, kind);
    case
}

fn phase(rng: &mut Rng, kind: u8) -> u32 {
    u32::from(kind == TORUS && rng.once_in(2))
}

/// Two rings around, and sometimes a hole between them.
fn band(rng: &mut Rng, low: f64, high: f64) -> Vec<Ring> {
    let depth = if rng.once_in(2) {
        0.0
    } else {
        rng.between(0.0, 0.2) * (high - low)
    };
    let coedges = rng.whole(1, 2);
    let mut rings = vec![
        around(rng, coedges, low, depth),
        around(rng, 1, high, depth).reversed(),
    ];
    if rng.once_in(3) {
        let size = rng.between(0.1, 0.3) * (high - low);
        let centre = [rng.between(-PI, PI), (low + high) / 2.0];
        rings.push(put(star(rng, 3), centre, size));
    }
    rng.shuffle(&mut rings);
    rings
}

/// Cylinders and cones with rings around; also a single one, which leaves the
/// face open on one side.
pub fn bands_around(rng: &mut Rng) -> Case {
    let kind = rng.pick(&[CYLINDER, CONE]);
    let low = rng.between(-5.0, 5.0);
    let height = rng.between(0.1, 12.0);
    let mut rings = band(rng, low, low + height);
    if rng.once_in(8) {
        rings = vec![around(rng, 1, low, 0.3 * height)];
    }
    if rng.once_in(2) {
        rings = rings.into_iter().map(|ring| wrapped(ring, kind)).collect();
    }
    let sheet = sheet(rng, &[kind], rings);
    Case::new(rng, sheet)
}

/// Bands of a torus, of either orientation and any sense.
pub fn torus_bands(rng: &mut Rng) -> Case {
    let low = rng.between(-2.5, 1.0);
    let high = low + rng.between(0.3, 2.2);
    torus_band(rng, low, high)
}

fn torus_band(rng: &mut Rng, low: f64, high: f64) -> Case {
    let mut rings = band(rng, low, high);
    let sense = match rng.below(9) {
        0 => ABSENT,
        1 => rng.pick(&SENSES),
        2..=5 => {
            rings = rings.into_iter().map(Ring::reversed).collect();
            REVERSED
        }
        _ => FORWARD,
    };
    if rng.once_in(2) {
        rings = rings.into_iter().map(|ring| wrapped(ring, TORUS)).collect();
    } else {
        let turns = rng.pick(&[0.0, 0.0, -TAU, TAU, -2.0 * TAU]);
        let points = rings.iter_mut().flat_map(Ring::points_mut);
        points.for_each(|p| p[1] += turns);
    }
    let mut case = Case::new(rng, Sheet::new(TORUS, sense, rings));
    case.phase = phase(rng, TORUS);
    case
}

/// Bands on the inner side, across the seam of v: they need phase 1.
pub fn inner_torus_bands(rng: &mut Rng) -> Case {
    let low = PI - rng.between(0.2, 1.2);
    let high = PI + rng.between(0.2, 1.2);
    let mut case = torus_band(rng, low, high);
    for ring in &mut case.sheet.rings {
        *ring = wrapped(ring.clone(), TORUS);
    }
    case.phase = u32::from(!rng.once_in(4));
    case
}

/// Bands too wide to tell which side is the face's.
pub fn wide_torus_bands(rng: &mut Rng) -> Case {
    let low = rng.between(-3.0, -1.6);
    let high = low + rng.between(3.0, 4.5);
    torus_band(rng, low, high)
}

/// Rings around on a sphere do not close on its chart.
pub fn sphere_rings(rng: &mut Rng) -> Case {
    let low = rng.between(-1.2, 0.0);
    let high = low + rng.between(0.2, 1.2);
    let rings = band(rng, low, high);
    let sheet = sheet(rng, &[SPHERE, SPHERE, NURBS], rings);
    Case::new(rng, sheet)
}

/// Charts far from 0, and large ones.
pub fn far_charts(rng: &mut Rng) -> Case {
    let centre = [0; 2].map(|_| rng.between(-1.0e6, 1.0e6));
    let size = rng.pick(&[1.0e-6, 0.01, 1.0, 100.0, 40_000.0]);
    let mut rings = ring_with_holes(rng);
    for p in rings.iter_mut().flat_map(Ring::points_mut) {
        *p = [0, 1].map(|axis| (centre[axis] + size * p[axis]).clamp(-1_048_576.0, 1_048_576.0));
    }
    let sheet = sheet(rng, &[PLANE, CYLINDER, CONE, SPHERE, NURBS], rings);
    Case::new(rng, sheet)
}

/// Steps of exactly half a turn, where halves are rounded away from zero.
pub fn half_turns(rng: &mut Rng) -> Case {
    let kind = rng.pick(&ROUND);
    let start = rng.pick(&[0.0, -PI, PI, TAU]);
    let height = rng.between(0.5, 3.0);
    let step = if rng.once_in(2) { PI } else { -PI };
    let corners = [
        [start, 0.0],
        [start + step, 0.0],
        [start + step, height],
        [start, height],
    ];
    let mut ring = Ring::polygon(&corners);
    for coedge in &mut ring.0 {
        let end = coedge.points[16];
        coedge.points[1..].fill(end);
    }
    let sheet = sheet(rng, &[kind], vec![ring]);
    let mut case = Case::new(rng, sheet);
    case.phase = phase(rng, kind);
    case
}

/// Faces too thin for a grid point to be clear of their sides.
pub fn slivers(rng: &mut Rng) -> Case {
    let outer = Ring::rectangle([0.0, 0.0], [1.0, 1.0]);
    let margin = rng.between(0.0, 0.06);
    let hole = Ring::rectangle([margin, margin], [1.0 - margin, 1.0 - margin]);
    let rings = if rng.once_in(2) {
        vec![outer, hole]
    } else {
        let thin = rng.between(0.001, 0.03);
        let corners = [[0.0, 0.0], [1.0, 1.0 - thin], [1.0, 1.0], [0.0, thin]];
        vec![Ring::polygon(&corners)]
    };
    let placement = Placement::any(rng);
    let placed = rng.once_in(2);
    let place = |ring| if placed { placement.ring(ring) } else { ring };
    let rings = rings.into_iter().map(place).collect();
    let sheet = sheet(
        rng,
        &[PLANE, CYLINDER, CONE, SPHERE, TORUS, NURBS, OTHER],
        rings,
    );
    Case::new(rng, sheet)
}

/// Trims squeezed to a line or to a point, or nearly.
pub fn zero_width(rng: &mut Rng) -> Case {
    let mut rings = ring_with_holes(rng);
    let at = rng.between(-2.0, 2.0);
    let width = rng.pick(&[0.0, 0.0, 1.0e-16, 1.0e-14, 1.0e-12]);
    let axis = rng.below(2);
    for p in rings.iter_mut().flat_map(Ring::points_mut) {
        p[axis] = at + width * p[axis];
    }
    let sheet = sheet(
        rng,
        &[PLANE, CYLINDER, CONE, SPHERE, TORUS, NURBS, OTHER],
        rings,
    );
    let mut case = Case::new(rng, sheet);
    case.phase = phase(rng, case.sheet.kind);
    case
}

/// Rings with a gap between two coedges or at their end.
pub fn open_joins(rng: &mut Rng) -> Case {
    let mut case = match rng.below(3) {
        0 => bands_around(rng),
        1 => holes(rng),
        _ => round_patches(rng),
    };
    let gap = rng.pick(&[1.0e-6, 1.0e-5, 1.0e-4, 2.0e-4, 5.0e-4, 7.0e-4, 1.0e-3, 0.1]);
    let index = rng.below(case.sheet.rings.len());
    let ring = &mut case.sheet.rings[index];
    let coedge = rng.below(ring.0.len());
    ring.0[coedge].points[16][rng.below(2)] += gap;
    case
}

/// Faces small beside the measured deviation, or small beside 1e-7.
pub fn too_near_in_space(rng: &mut Rng) -> Case {
    let mut case = match rng.below(4) {
        0 => bands_around(rng),
        1 => torus_bands(rng),
        2 => round_patches(rng),
        _ => holes(rng),
    };
    shrink(rng, &mut case);
    let index = rng.below(case.sheet.rings.len());
    let coedge = rng.below(case.sheet.rings[index].0.len());
    case.sheet.set_deviation(rng.between(0.0, 0.0005));
    case.sheet.rings[index].0[coedge].deviation = rng.between(0.0, 0.002);
    case
}

fn shrink(rng: &mut Rng, case: &mut Case) {
    let factor = rng.pick(&[1.0e-8, 1.0e-3, 0.01, 0.05]);
    case.surface = match case.surface {
        Surface::Plane(mut plane) => {
            plane.u_axis = plane.u_axis.map(|x| factor * x);
            case.sheet.plane = plane;
            Surface::Plane(plane)
        }
        _ => Surface::Graph { factor },
    };
}

/// Zeros of both signs in coordinates, deviations and the plane's numbers.
pub fn negative_zeros(rng: &mut Rng) -> Case {
    let mut case = symmetric_plates(rng);
    if rng.once_in(3) {
        case.sheet.points_mut().for_each(|p| p[0] -= 0.5);
    }
    let plane = &mut case.sheet.plane;
    let vectors = [&mut plane.origin, &mut plane.u_axis, &mut plane.normal];
    let mut numbers: Vec<&mut f64> = vectors.into_iter().flatten().collect();
    let coedges = case.sheet.rings.iter_mut().flat_map(|ring| &mut ring.0);
    for coedge in coedges {
        numbers.push(&mut coedge.deviation);
        numbers.extend(coedge.points.as_flattened_mut());
    }
    for number in numbers {
        if *number == 0.0 && rng.once_in(2) {
            *number = -0.0;
        }
    }
    case
}

/// Surfaces that cannot be evaluated everywhere: the original gives none.
pub fn clipped_surfaces(rng: &mut Rng) -> Case {
    let rings = ring_with_holes(rng);
    let sheet = sheet(rng, &[CYLINDER, CONE, SPHERE, TORUS, NURBS, OTHER], rings);
    let mut case = Case::new(rng, sheet);
    case.surface = Surface::Clipped {
        factor: 1.0,
        limit: rng.between(-6.0, 6.0),
    };
    case
}
