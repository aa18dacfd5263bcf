//! `pick_face` does what the original's `point` does, and `pick_all` the same on
//! threads.

mod common;

use std::cell::Cell;
use std::f64::consts::TAU;
use std::num::NonZeroUsize;
use std::panic::{catch_unwind, AssertUnwindSafe};

use common::{between, flat, inner_band, octant, rectangle, sample, square, written, SAMPLES};
use facepoint::{
    chart, pick_all, pick_face, plane_pick, By, Face, FaceError, FacePick, Kind, Phase, Refusal,
    Sense, Sheet, Surface, Triangle, Xyz,
};

fn tube(u: f64, v: f64) -> Option<Xyz> {
    Some([2.0 * u.cos(), 2.0 * u.sin(), v])
}

fn torus(u: f64, v: f64) -> Option<Xyz> {
    let radius = 3.0 + v.cos();
    Some([radius * u.cos(), radius * u.sin(), v.sin()])
}

fn nowhere(_: f64, _: f64) -> Option<Xyz> {
    None
}

fn grid(pick: &FacePick) -> (Phase, u32) {
    match pick.by {
        By::Grid { phase, count, .. } => (phase, count),
        By::Triangle => panic!("not by a triangle"),
    }
}

/// A plane's surface is on its sheet.
#[test]
fn planes_are_picked_without_a_surface() {
    for name in SAMPLES {
        let sheet = sample(name);
        let plane = plane_pick(&sheet).map_err(FaceError::Refused);
        let pick = pick_face(&sheet, &nowhere);
        assert_eq!(pick.map(|pick| pick.point), plane.map(|pick| pick.point));
        let counts = [pick.map(|pick| grid(&pick).1), plane.map(|pick| pick.count)];
        assert_eq!(counts[0], counts[1], "{name}");
    }
}

#[test]
fn cylinder_is_picked_by_its_images() {
    let sheet = written(&between(Kind::Cylinder, Sense::Forward, 0.0, 1.0));
    let uv = chart(&sheet, Phase::Zero).map(|chart| chart.uv);
    assert_eq!(uv, Ok([0.19634954084936207, 0.5]));
    let pick = pick_face(&sheet, &tube).expect("a tube has a point");
    assert_eq!(Some(pick.point), tube(0.19634954084936207, 0.5));
    assert_eq!(grid(&pick), (Phase::Zero, 961));
}

#[test]
fn surface_that_cannot_be_evaluated_is_an_error() {
    let sheet = written(&between(Kind::Cylinder, Sense::Forward, 0.0, 1.0));
    let clipped = |u: f64, v: f64| if v > 0.75 { None } else { tube(u, v) };
    let error = pick_face(&sheet, &clipped).expect_err("its upper ring is nowhere");
    assert_eq!(error, FaceError::NotEvaluated([TAU, 1.0]));
    let said = "the surface cannot be evaluated at u = 6.283185307179586, v = 1";
    assert_eq!(error.to_string(), said);
    // The chosen point is evaluated, too.
    let but_there = |u: f64, v: f64| if v == 0.5 { None } else { tube(u, v) };
    let error = pick_face(&sheet, &but_there);
    let chosen = [0.19634954084936207, 0.5];
    assert_eq!(error, Err(FaceError::NotEvaluated(chosen)));
    let not_finite = |_, _| Some([f64::NAN; 3]);
    let error = pick_face(&sheet, &not_finite);
    assert_eq!(error, Err(FaceError::Refused(Refusal::Images)));
}

/// A surface that counts how often it is evaluated.
struct Counted<'a> {
    evaluations: &'a Cell<usize>,
    at: fn(f64, f64) -> Option<Xyz>,
}

impl Surface for Counted<'_> {
    fn evaluate(&self, u: f64, v: f64) -> Option<Xyz> {
        self.evaluations.set(self.evaluations.get() + 1);
        (self.at)(u, v)
    }
}

#[test]
fn torus_is_tried_again_after_11() {
    let sheet = written(&inner_band());
    assert_eq!(chart(&sheet, Phase::Zero).err(), Some(Refusal::Band));
    let evaluations = &Cell::new(0);
    let at = torus;
    let pick = pick_face(&sheet, &Counted { evaluations, at }).expect("at phase 1");
    assert_eq!(grid(&pick).0, Phase::One);
    let [u, v] = chart(&sheet, Phase::One).expect("at phase 1").uv;
    assert_eq!(v, -3.1415926535897927);
    assert_eq!(Some(pick.point), torus(u, v));
    // Every point of both rings and the chosen one, once.
    assert_eq!(evaluations.get(), 2 * 17 + 1);
}

/// The upper side of a torus, away from either phase's seam.
fn upper_band() -> Face {
    between(Kind::Torus, Sense::Forward, 1.0, 2.0)
}

#[test]
fn torus_is_not_tried_again_after_an_answer() {
    let pick = pick_face(&written(&upper_band()), &torus).expect("at phase 0");
    assert_eq!(grid(&pick).0, Phase::Zero);
}

/// The first evaluation is phase 0's.
#[test]
fn torus_is_tried_again_after_a_failed_evaluation() {
    let sheet = written(&upper_band());
    let failed = Cell::new(false);
    let fails_once = |u: f64, v: f64| match failed.replace(true) {
        false => None,
        true => torus(u, v),
    };
    let pick = pick_face(&sheet, &fails_once).expect("at phase 1");
    assert_eq!(grid(&pick).0, Phase::One);
}

#[test]
fn torus_is_tried_again_after_15() {
    let sheet = written(&upper_band());
    let calls = Cell::new(0);
    let one_place_first = |u: f64, v: f64| {
        calls.set(calls.get() + 1);
        if calls.get() <= 2 * 17 + 1 {
            return Some([1.0; 3]);
        }
        torus(u, v)
    };
    let pick = pick_face(&sheet, &one_place_first).expect("at phase 1");
    assert_eq!(grid(&pick).0, Phase::One);
    assert_eq!(calls.get(), 2 * (2 * 17 + 1));
}

/// The error is the second phase's.
#[test]
fn torus_may_fail_twice() {
    let sheet = written(&inner_band());
    let error = pick_face(&sheet, &nowhere).expect_err("no surface");
    assert!(matches!(error, FaceError::NotEvaluated(_)), "{error}");
    let mut absent = inner_band();
    absent.sense = Sense::Absent;
    let error = pick_face(&written(&absent), &torus);
    assert_eq!(error, Err(FaceError::Refused(Refusal::NoneClear)));
}

#[test]
fn other_kinds_are_not_tried_again() {
    let sheet = written(&between(Kind::Cone, Sense::Forward, 0.0, 1.0));
    let evaluations = &Cell::new(0);
    let at = nowhere;
    let error = pick_face(&sheet, &Counted { evaluations, at });
    assert_eq!(error, Err(FaceError::NotEvaluated([0.0; 2])));
    assert_eq!(evaluations.get(), 1);
}

/// A face of the unit sphere, with or without the triangle that it is.
struct Ball(Option<Triangle>);

impl Surface for Ball {
    fn evaluate(&self, u: f64, v: f64) -> Option<Xyz> {
        Some([v.cos() * u.cos(), v.cos() * u.sin(), v.sin()])
    }

    fn triangle(&self) -> Option<Triangle> {
        self.0
    }
}

/// A patch of a sphere away from the poles.
fn patch(sense: Sense) -> Sheet {
    let trim = rectangle([0.2, 0.1], [1.2, 0.9]);
    written(&Face::new(Kind::Sphere, sense).ring(trim))
}

#[test]
fn triangle_comes_first_on_a_sphere() {
    let pick = pick_face(&patch(Sense::Forward), &Ball(Some(octant())));
    let middle = [1.0 / 3.0f64.sqrt(); 3];
    let expected = FacePick {
        point: middle,
        by: By::Triangle,
    };
    assert_eq!(pick, Ok(expected));
    // Before the sheet's own checks, as in the original.
    let empty = written(&Face::new(Kind::Sphere, Sense::Forward));
    assert_eq!(pick_face(&empty, &Ball(Some(octant()))), Ok(expected));
}

#[test]
fn chart_follows_where_the_triangle_is_refused() {
    for (sense, triangle) in [
        (Sense::Reversed, Some(octant())),
        (Sense::Absent, Some(octant())),
        (Sense::Forward, None),
    ] {
        let pick = pick_face(&patch(sense), &Ball(triangle)).expect("by its chart");
        assert_eq!(grid(&pick), (Phase::Zero, 961));
        assert_eq!(Some(pick.point), Ball(None).evaluate(0.7, 0.5));
    }
}

#[test]
fn triangle_is_for_spheres_alone() {
    let trim = rectangle([0.2, 0.1], [1.2, 0.9]);
    let other = written(&Face::new(Kind::Nurbs, Sense::Forward).ring(trim));
    let pick = pick_face(&other, &Ball(Some(octant()))).expect("by its chart");
    assert_eq!(grid(&pick).0, Phase::Zero);
}

#[test]
fn bytes_that_are_no_sheet_are_refused() {
    for bytes in [&[][..], &[0, 0, 0, 4, 1, 4, 1], &[0; 64]] {
        let error = pick_face(&Sheet::from_bytes(bytes), &torus);
        assert_eq!(error, Err(FaceError::Refused(Refusal::Length)));
    }
}

/// Many faces of every kind, answered and refused.
fn many() -> Vec<Sheet> {
    let mut sheets: Vec<Sheet> = SAMPLES.iter().map(|name| sample(name)).collect();
    for k in 0..60 {
        let size = 0.5 + f64::from(k) / 16.0;
        let hole = square(0.3 * size, 0.6 * size);
        sheets.push(written(&flat().ring(square(0.0, size)).ring(hole)));
        let (low, high) = (-size, f64::from(k % 7) - 3.0);
        for kind in [Kind::Cylinder, Kind::Cone, Kind::Torus, Kind::Other] {
            sheets.push(written(&between(kind, Sense::Forward, low, high)));
        }
        sheets.push(Sheet::from_bytes(vec![0; k as usize]));
    }
    sheets.push(written(&inner_band()));
    sheets.push(patch(Sense::Forward));
    sheets
}

/// The bits of an answer, so that a −0 is not a +0.
fn bits(pick: &Result<FacePick, FaceError>) -> Result<([u64; 3], By), FaceError> {
    pick.map(|pick| (pick.point.map(f64::to_bits), pick.by))
}

#[test]
fn threads_change_nothing() {
    let sheets = many();
    let ball = Ball(Some(octant()));
    let surface = |sheet: &Sheet| -> &(dyn Surface + Sync) {
        match sheet.bytes().get(5) {
            Some(3) => &ball,
            Some(4) => &torus,
            Some(6) => &nowhere,
            _ => &tube,
        }
    };
    let faces: Vec<_> = sheets.iter().map(|sheet| (sheet, surface(sheet))).collect();
    let one_by_one: Vec<_> = faces
        .iter()
        .map(|(sheet, surface)| bits(&pick_face(sheet, *surface)))
        .collect();
    assert!(one_by_one.iter().filter(|pick| pick.is_ok()).count() > 100);
    assert!(one_by_one.iter().filter(|pick| pick.is_err()).count() > 50);
    for threads in [1, 2, 3, 4, 7, 16, 1000] {
        let threads = NonZeroUsize::new(threads).expect("not 0");
        let picks = pick_all(&faces, threads);
        assert_eq!(picks.iter().map(bits).collect::<Vec<_>>(), one_by_one);
    }
}

#[test]
fn no_faces_have_no_points() {
    assert!(pick_all(&[], NonZeroUsize::MAX).is_empty());
}

/// A panic is the surface's own, and reaches the caller.
#[test]
fn panics_of_a_surface_are_not_caught() {
    let sheet = written(&between(Kind::Cylinder, Sense::Forward, 0.0, 1.0));
    let broken = |_: f64, _: f64| -> Option<Xyz> { panic!("broken surface") };
    let said = |panic: Box<dyn std::any::Any + Send>| panic.downcast::<&str>().ok();
    let panic = catch_unwind(|| pick_face(&sheet, &broken)).expect_err("broken");
    assert_eq!(said(panic).as_deref(), Some(&"broken surface"));
    let mut faces = vec![(&sheet, &tube as &(dyn Surface + Sync)); 16];
    faces[9].1 = &broken;
    let threads = NonZeroUsize::new(3).expect("not 0");
    let panic = catch_unwind(AssertUnwindSafe(|| pick_all(&faces, threads)));
    let panic = panic.expect_err("one is broken");
    assert_eq!(said(panic).as_deref(), Some(&"broken surface"));
}
