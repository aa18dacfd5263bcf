//! From faces to points, as a converter does it: samples the trims of some faces,
//! writes their sheets, picks on threads, and says where each point stands after the
//! body's transform.
//!
//!     cargo run -p facepoint --example body

use std::error::Error;
use std::f64::consts::{FRAC_PI_2, TAU};
use std::io::{stdout, ErrorKind, Write};
use std::thread::available_parallelism;

use facepoint::{
    pick_all, placed, sample_parameter, Coedge, Face, Kind, Plane, Ring, Sense, Sheet, Side,
    Surface, Triangle, Xyz,
};

/// The converter's own geometry.
enum Geometry {
    /// Its numbers are on the sheet.
    Plane,
    Cylinder {
        radius: f64,
    },
    Torus {
        major: f64,
        minor: f64,
    },
    /// Around the origin, with the face's corners where it is a triangle.
    Sphere {
        radius: f64,
        corners: Option<[Xyz; 3]>,
    },
}

impl Surface for Geometry {
    fn evaluate(&self, u: f64, v: f64) -> Option<Xyz> {
        let around = |radius: f64, height: f64| [radius * u.cos(), radius * u.sin(), height];
        Some(match *self {
            Geometry::Plane => return None,
            Geometry::Cylinder { radius } => around(radius, v),
            Geometry::Torus { major, minor } => around(major + minor * v.cos(), minor * v.sin()),
            Geometry::Sphere { radius, .. } => around(radius * v.cos(), radius * v.sin()),
        })
    }

    fn triangle(&self) -> Option<Triangle> {
        let Geometry::Sphere { radius, corners } = self else {
            return None;
        };
        let [a, b, c] = (*corners)?;
        let side = |from: Xyz, to: Xyz| Side {
            ends: [from, to],
            reversed: false,
            circle_centre: [0.0; 3],
            circle_radius: *radius,
            range: [0.0, FRAC_PI_2],
            evaluated: [from, to],
        };
        Some(Triangle {
            centre: [0.0; 3],
            radius: *radius,
            sides: [side(a, b), side(b, c), side(c, a)],
        })
    }
}

/// A circle on a plane, in quarters. It is a curve in u and v, so nothing deviates.
fn circle(radius: f64) -> Result<Ring, Box<dyn Error>> {
    let mut ring = Ring::default();
    for quarter in 0..4 {
        let start = f64::from(quarter) * FRAC_PI_2;
        let mut points = Vec::new();
        for n in 0..=16 {
            let t = sample_parameter([start, start + FRAC_PI_2], n)?;
            points.push([radius * t.cos(), radius * t.sin()]);
        }
        ring.coedges.push(Coedge::from_points(0.0, &points)?);
    }
    Ok(ring)
}

/// A ring once around a cylinder or a torus.
fn around(v: f64) -> Ring {
    vec![Coedge::line([0.0, v], [TAU, v])].into()
}

type Model = Vec<(&'static str, Sheet, Geometry)>;

fn model() -> Result<Model, Box<dyn Error>> {
    let washer = Face::new(Kind::Plane(Plane::XY), Sense::Forward)
        .ring(circle(2.0)?)
        .ring(circle(1.0)?.reversed());
    let wall = Face::new(Kind::Cylinder, Sense::Forward)
        .ring(around(0.0))
        .ring(around(1.0).reversed());
    let throat = Face::new(Kind::Torus, Sense::Forward)
        .ring(around(2.8))
        .ring(around(-2.8).reversed());
    // Its side along the equator, the one up to the pole, and the pole's own.
    let corner = Face::new(Kind::Sphere, Sense::Forward).ring(Ring::polygon(&[
        [0.0, 0.0],
        [FRAC_PI_2, 0.0],
        [FRAC_PI_2, FRAC_PI_2],
        [0.0, FRAC_PI_2],
    ]));
    let rim = Face::new(Kind::Plane(Plane::XY), Sense::Forward)
        .ring(circle(2.0)?)
        .ring(circle(1.98)?.reversed());
    let corners = Some([[3.0, 0.0, 0.0], [0.0, 3.0, 0.0], [0.0, 0.0, 3.0]]);
    let radius = 3.0;
    Ok(vec![
        ("washer", washer.sheet()?, Geometry::Plane),
        ("wall", wall.sheet()?, Geometry::Cylinder { radius: 2.0 }),
        (
            "throat",
            throat.sheet()?,
            Geometry::Torus {
                major: 3.0,
                minor: 1.0,
            },
        ),
        (
            "corner",
            corner.sheet()?,
            Geometry::Sphere { radius, corners },
        ),
        ("rim", rim.sheet()?, Geometry::Plane),
    ])
}

fn main() -> Result<(), Box<dyn Error>> {
    // A quarter turn about z, and then up.
    let transform = [
        [0.0, -1.0, 0.0, 0.0],
        [1.0, 0.0, 0.0, 0.0],
        [0.0, 0.0, 1.0, 10.0],
    ];
    let model = model()?;
    let faces: Vec<(&Sheet, &(dyn Surface + Sync))> = model
        .iter()
        .map(|(_, sheet, geometry)| (sheet, geometry as _))
        .collect();
    let picks = pick_all(&faces, available_parallelism()?);
    for ((name, ..), pick) in model.iter().zip(picks) {
        let said = match pick {
            Ok(pick) => {
                let [x, y, z] = placed(&transform, pick.point)?;
                format!("{x:.6} {y:.6} {z:.6}, {:?}", pick.by)
            }
            Err(why) => why.to_string(),
        };
        match writeln!(stdout(), "{name}: {said}") {
            // Nobody reads on.
            Err(why) if why.kind() == ErrorKind::BrokenPipe => break,
            written => written?,
        }
    }
    Ok(())
}
