//! Rings to build sheets from.

use std::f64::consts::{PI, TAU};

use crate::rng::Rng;
use crate::sheet::{Ring, Sheet, Uv, TORUS};

/// Moves and turns a shape of the plane.
#[derive(Clone, Copy)]
pub struct Placement {
    centre: Uv,
    size: Uv,
    angle: f64,
}

impl Placement {
    pub fn any(rng: &mut Rng) -> Placement {
        let size = rng.between(0.05, 3.0);
        let narrow = rng.between(0.2, 1.0);
        Placement {
            centre: [rng.between(-4.0, 4.0), rng.between(-4.0, 4.0)],
            size: [size, size * narrow],
            angle: rng.between(0.0, TAU),
        }
    }

    pub fn place(&self, p: Uv) -> Uv {
        let (sin, cos) = self.angle.sin_cos();
        let [x, y] = [p[0] * self.size[0], p[1] * self.size[1]];
        [
            self.centre[0] + x * cos - y * sin,
            self.centre[1] + x * sin + y * cos,
        ]
    }

    pub fn ring(&self, mut ring: Ring) -> Ring {
        ring.points_mut().for_each(|p| *p = self.place(*p));
        ring
    }
}

/// A ring around 0, made smaller and put around `centre`.
pub fn put(mut ring: Ring, centre: Uv, size: f64) -> Ring {
    for p in ring.points_mut() {
        *p = [centre[0] + size * p[0], centre[1] + size * p[1]];
    }
    ring
}

/// A point of the unit circle, `part` of the way round; 1 is where 0 is.
fn on_circle(part: f64) -> Uv {
    let angle = TAU * part.fract();
    [angle.cos(), angle.sin()]
}

/// A star-shaped polygon around 0 with a side for each coedge.
pub fn star(rng: &mut Rng, corners: usize) -> Ring {
    let corner = |k: usize, radius: f64| on_circle(k as f64 / corners as f64).map(|x| x * radius);
    let corners: Vec<Uv> = (0..corners)
        .map(|k| corner(k, rng.between(0.3, 1.0)))
        .collect();
    Ring::polygon(&corners)
}

/// A closed wavy curve around 0.
pub fn blob(rng: &mut Rng, coedges: usize) -> Ring {
    let waves = rng.whole(2, 5) as f64;
    let depth = rng.between(0.0, 0.4);
    Ring::curve(coedges, |part| {
        let radius = 1.0 - depth * (0.5 - 0.5 * (TAU * waves * part.fract()).cos());
        on_circle(part).map(|x| x * radius)
    })
}

/// A ring around 0, up to 1 from it.
pub fn any_ring(rng: &mut Rng) -> Ring {
    let ring = match rng.below(3) {
        0 => {
            let corners = rng.whole(3, 5);
            star(rng, corners)
        }
        1 => {
            let coedges = rng.whole(1, 3);
            blob(rng, coedges)
        }
        _ => Ring::rectangle([-0.9, -0.9], [0.9, 0.9]),
    };
    if rng.once_in(2) {
        ring.reversed()
    } else {
        ring
    }
}

/// A closed polygon of random steps; it crosses itself.
pub fn walk(rng: &mut Rng, coedges: usize) -> Ring {
    let count = 16 * coedges;
    let mut at = [0.0, 0.0];
    let mut steps = Vec::with_capacity(count);
    for _ in 0..count {
        steps.push(at);
        at = at.map(|x: f64| x + rng.between(-1.0, 1.0));
    }
    Ring::curve(coedges, |part| {
        steps[(part * count as f64) as usize % count]
    })
}

/// Once around in u at a wavy v, from `start`; the curve's end is a turn on.
pub fn around(rng: &mut Rng, coedges: usize, v: f64, depth: f64) -> Ring {
    let start = rng.between(-PI, PI);
    let waves = rng.whole(1, 4) as f64;
    let shift = rng.between(0.0, TAU);
    Ring::curve(coedges, |part| {
        let wave = (shift + TAU * waves * part.fract()).sin();
        [start + TAU * part, v + depth * wave]
    })
}

/// As modellers give angles: in −PI to PI, u or u and v.
pub fn wrapped(mut ring: Ring, kind: u8) -> Ring {
    let wrap = |x: f64| x - ((x + PI) / TAU).floor() * TAU;
    for point in ring.points_mut() {
        point[0] = wrap(point[0]);
        if kind == TORUS {
            point[1] = wrap(point[1]);
        }
    }
    ring
}

/// The largest sheet that is accepted: 16 rings, 128 coedges, kind 0.
pub fn largest() -> Sheet {
    let mut rings = vec![Ring::square(8, [0.5, 0.5], 0.5)];
    for k in 0..15 {
        let centre = [0.14 + 0.18 * f64::from(k % 5), 0.2 + 0.3 * f64::from(k / 5)];
        rings.push(Ring::square(8, centre, 0.03));
    }
    Sheet::flat(rings)
}
