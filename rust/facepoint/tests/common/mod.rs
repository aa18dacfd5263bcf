//! Sheets that several tests use.

#![allow(dead_code)] // each test program uses some of them

use std::f64::consts::{FRAC_PI_2, TAU};
use std::path::{Path, PathBuf};

use facepoint::{Coedge, Face, Kind, Plane, Ring, Sense, Sheet, Side, Triangle};

pub const SAMPLES: [&str; 4] = ["plate-a", "plate-b", "plate-c", "panel"];

/// A file of the repository.
pub fn repository(path: impl AsRef<Path>) -> PathBuf {
    Path::new(env!("CARGO_MANIFEST_DIR"))
        .join("../..")
        .join(path)
}

pub fn sample_path(name: &str, extension: &str) -> PathBuf {
    repository("samples").join(name).with_extension(extension)
}

pub fn picture_path(name: &str) -> PathBuf {
    repository("docs/pictures").join(name).with_extension("svg")
}

pub fn sample(name: &str) -> Sheet {
    Sheet::from_file(sample_path(name, "sheet")).expect("a committed sample")
}

pub fn rectangle(low: [f64; 2], high: [f64; 2]) -> Ring {
    Ring::polygon(&[low, [high[0], low[1]], high, [low[0], high[1]]])
}

pub fn square(low: f64, high: f64) -> Ring {
    rectangle([low, low], [high, high])
}

pub fn flat() -> Face {
    Face::new(Kind::Plane(Plane::XY), Sense::Forward)
}

pub fn plate_a() -> Face {
    flat().ring(square(0.0, 1.0))
}

pub fn plate_b() -> Face {
    plate_a().ring(square(0.25, 0.75))
}

pub fn plate_c() -> Face {
    plate_a().ring(square(0.015625, 0.984375))
}

/// A ring once around at this v, in one coedge.
pub fn around(v: f64) -> Ring {
    vec![Coedge::line([0.0, v], [TAU, v])].into()
}

/// The face between two rings around, the second of which goes back.
pub fn between(kind: Kind, sense: Sense, low: f64, high: f64) -> Face {
    let (low, high) = (around(low), around(high).reversed());
    Face::new(kind, sense).ring(low).ring(high)
}

/// The inner side of a torus, across the seam of v: phase 0 does not see it.
pub fn inner_band() -> Face {
    between(Kind::Torus, Sense::Forward, 2.8, -2.8)
}

pub fn written(face: &Face) -> Sheet {
    face.sheet().expect("a face that can be written")
}

/// The octant where x, y and z are positive.
pub fn octant() -> Triangle {
    let corner = |k: usize| [0, 1, 2].map(|axis| if axis == k % 3 { 1.0 } else { 0.0 });
    let side = |k: usize| Side {
        ends: [corner(k), corner(k + 1)],
        reversed: false,
        circle_centre: [0.0; 3],
        circle_radius: 1.0,
        range: [0.0, FRAC_PI_2],
        evaluated: [corner(k), corner(k + 1)],
    };
    Triangle {
        centre: [0.0; 3],
        radius: 1.0,
        sides: [side(0), side(1), side(2)],
    }
}
