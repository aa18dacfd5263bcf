//! The surfaces on which points of a chart are evaluated. The geometry crate's
//! own evaluation is not here; original and model are given the same function.

use crate::sheet::Plane;

#[derive(Clone, Copy, Debug)]
pub enum Surface {
    /// Document 01's plane stand-in, on the sheet's own plane numbers.
    Plane(Plane),
    Cylinder {
        radius: f64,
    },
    Cone {
        radius: f64,
        growth: f64,
    },
    Sphere {
        radius: f64,
    },
    Torus {
        major: f64,
        minor: f64,
    },
    /// A wavy graph over the chart.
    Graph {
        factor: f64,
    },
    /// A graph that cannot be evaluated where u is above the limit.
    Clipped {
        factor: f64,
        limit: f64,
    },
}

impl Surface {
    pub fn point(&self, u: f64, v: f64) -> Option<[f64; 3]> {
        let around = |radius: f64, height: f64| [radius * u.cos(), radius * u.sin(), height];
        Some(match *self {
            Surface::Plane(plane) => plane.point(u, v),
            Surface::Cylinder { radius } => around(radius, v),
            Surface::Cone { radius, growth } => around(radius + growth * v, v),
            Surface::Sphere { radius } => around(radius * v.cos(), radius * v.sin()),
            Surface::Torus { major, minor } => around(major + minor * v.cos(), minor * v.sin()),
            Surface::Graph { factor } => graph(factor, u, v),
            Surface::Clipped { limit, .. } if u > limit => return None,
            Surface::Clipped { factor, .. } => graph(factor, u, v),
        })
    }
}

fn graph(factor: f64, u: f64, v: f64) -> [f64; 3] {
    [factor * u, factor * v, factor * (u + 2.0 * v).sin()]
}
