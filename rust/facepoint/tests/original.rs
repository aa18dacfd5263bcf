//! `pick_face` against the original's `point`, which runs from its own text (with
//! document 01's stand-in for `hypot`): the same bits, or both none. What else differs
//! by design (docs/DIFFERENCES.md) stays out of it: the faces' numbers are within the
//! limits of refusals 7, 10 and 16, the original reads a sheet's −0 as +0, and no
//! surface panics.

use facepoint::{pick_face, By, FacePick, Phase, Sheet, Side, Surface, Triangle, Xyz};
use oracle::generate::{face, Face};
use oracle::original::STAND_IN;
use oracle::sheet::{SPHERE, TORUS};
use oracle::tally::{over_seeds, Tally};

const FACES: u64 = 6_000;

/// The face's surface as a host has it.
struct Host<'a>(&'a Face);

impl Surface for Host<'_> {
    fn evaluate(&self, u: f64, v: f64) -> Option<Xyz> {
        self.0.surface.point(u, v)
    }

    fn triangle(&self) -> Option<Triangle> {
        let triangle = self.0.triangle?;
        let side = |side: oracle::after::Side| Side {
            ends: side.ends,
            reversed: side.reversed != 0.0,
            circle_centre: side.circle_centre,
            circle_radius: side.circle_radius,
            range: side.range,
            evaluated: side.evaluated,
        };
        Some(Triangle {
            centre: triangle.centre,
            radius: triangle.radius,
            sides: triangle.sides.map(side),
        })
    }
}

fn original(face: &Face) -> Option<Xyz> {
    let Face { sheet, surface, .. } = face;
    let run = match &face.triangle {
        Some(triangle) => STAND_IN.point_of_triangle(sheet, *surface, triangle),
        None => STAND_IN.point(sheet, *surface),
    };
    run.point
}

fn found(kind: u8, how: &str) -> String {
    format!("kind {kind}: {how}")
}

fn compare_seed(seed: u64, tally: &mut Tally) {
    let face = face(seed);
    let ours = pick_face(&Sheet::from_bytes(face.sheet.bytes()), &Host(&face));
    let bits = |point: Xyz| point.map(f64::to_bits);
    let theirs = original(&face).map(bits);
    let same = ours.map(|pick| bits(pick.point)).ok() == theirs;
    assert!(same, "seed {seed}: {ours:?}, original {theirs:?}\n{face:?}");
    let how = match ours.map(|FacePick { by, .. }| by) {
        Err(_) => "none",
        Ok(By::Triangle) => "triangle",
        Ok(By::Grid {
            phase: Phase::Zero, ..
        }) => "phase 0",
        Ok(By::Grid {
            phase: Phase::One, ..
        }) => "phase 1",
    };
    tally.add(found(face.sheet.kind, how));
    if face.triangle.is_some() {
        tally.add(format!("three sides: {how}"));
    }
}

#[test]
fn pick_face_finds_what_the_originals_point_finds() {
    let tally = over_seeds(FACES, compare_seed);
    tally.print();
    let at_least = |times: usize, what: &str| {
        assert!(tally.of(what) >= times, "{what}: {}", tally.of(what));
    };
    for kind in 0..=6 {
        at_least(300, &found(kind, "phase 0"));
        at_least(50, &found(kind, "none"));
    }
    at_least(100, &found(TORUS, "phase 1"));
    at_least(400, &found(SPHERE, "triangle"));
    // A triangle that is refused leaves the face to its chart.
    at_least(300, "three sides: phase 0");
    at_least(30, "three sides: none");
}
