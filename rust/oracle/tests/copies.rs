//! The copies of the original against its text and against each other.

use std::f64::consts::FRAC_PI_2;
use std::fs;
use std::path::Path;

use oracle::generate::{case, face};
use oracle::original::{PUBLISHED, RECORDED, STAND_IN};
use oracle::rng::Rng;
use oracle::sheet::{Ring, Sheet, FORWARD, REVERSED, SPHERE, TORUS};
use oracle::surface::Surface;

fn original(name: &str) -> String {
    let folder = Path::new(env!("CARGO_MANIFEST_DIR")).join("original");
    fs::read_to_string(folder.join(name)).expect("a file of the original")
}

fn built(name: &str) -> String {
    fs::read_to_string(Path::new(env!("OUT_DIR")).join(name)).expect("a file of build.rs")
}

/// The text from `from` through `to`, which follows it.
fn part(text: &str, from: &str, to: &str) -> String {
    let start = text.find(from).expect("the beginning");
    let length = text[start..].find(to).expect("the end") + to.len();
    text[start..start + length].to_owned()
}

/// uv.rs stands whole at the head of two copies, but for `hypot` in the one; what is
/// taken of faces.rs and sketch.rs stands in all three, word for word. The recorded
/// copy has lines more, and its answers are held against the others'.
#[test]
fn the_copies_hold_the_originals_text() {
    let uv = original("uv.rs");
    assert!(built("uv_published.rs").starts_with(&uv));
    let stand_in = uv.replace(".hypot(", ".root_of_squares(");
    assert!(built("uv_stand_in.rs").starts_with(&stand_in));
    let recorded = built("uv_recorded.rs");
    let lines = recorded
        .lines()
        .filter(|line| !line.contains("crate::recorder::"));
    let unrecorded: String = lines.flat_map(|line| [line, "\n"]).collect();
    assert!(unrecorded.starts_with(&stand_in));

    let (faces, sketch, copies) = (
        original("faces.rs"),
        original("sketch.rs"),
        built("copies.rs"),
    );
    let function = |text: &str, name: &str| part(text, &format!("fn {name}("), "\n}\n");
    let mut taken = ["placed", "point_on", "cylinder_point", "inside"]
        .map(|n| function(&faces, n))
        .to_vec();
    taken.extend(["dot", "cross", "unit", "v3", "number"].map(|name| function(&sketch, name)));
    taken.push(part(&sketch, "const PARALLEL", ";\n"));
    for text in taken {
        assert_eq!(copies.matches(&text).count(), 3, "{text}");
    }
    // The middle, in `cylinder_point` and by itself; one of the latter is recorded.
    let middle = part(
        &faces,
        "    let low = ",
        "    let mid_height = (low + high) / 2.0;\n",
    );
    assert_eq!(copies.matches(&middle).count(), 5);
}

/// `cylinder_point` as a whole answers at the middle of its middle part.
#[test]
fn the_middle_is_that_of_the_whole_function() {
    let mut rng = Rng::new(1);
    let mut answered = 0;
    for _ in 0..4_000 {
        let (radius, from) = (rng.between(0.5, 9.0), rng.between(-3.0, 3.0));
        let sweep = rng.pick(&[0.0, 1.0, 3.0, 6.0]);
        let corners: Vec<[f64; 3]> = (0..rng.whole(1, 6))
            .map(|_| {
                let angle = from + rng.between(0.0, sweep);
                [
                    radius * angle.cos(),
                    radius * angle.sin(),
                    rng.between(-5.0, 5.0),
                ]
            })
            .collect();
        let heights: Vec<f64> = corners.iter().map(|p| p[2]).collect();
        let angles: Vec<f64> = corners.iter().map(|p| p[1].atan2(p[0])).collect();
        let (middle, _) = STAND_IN.middle(&heights, &angles);
        let expected = middle.map(|[angle, height]| {
            [
                0.0 + radius * angle.cos(),
                0.0 + radius * angle.sin(),
                height,
            ]
        });
        for copy in [STAND_IN, RECORDED, PUBLISHED] {
            assert_eq!(copy.middle(&heights, &angles).0, middle);
            assert_eq!(copy.cylinder_point(radius, &corners), expected);
        }
        answered += usize::from(middle.is_some());
    }
    println!("{answered} answered");
    assert!((1_000..3_900).contains(&answered));
}

/// The triangle is a call of its own; a sheet's carriers are no circles.
#[test]
fn the_spherical_triangle_never_answers() {
    let corners = [[0.0, 0.0], [FRAC_PI_2, 0.0], [FRAC_PI_2, FRAC_PI_2]];
    let surface = Surface::Sphere { radius: 1.0 };
    for sense in [FORWARD, REVERSED] {
        let sheet = Sheet::new(SPHERE, sense, vec![Ring::polygon(&corners)]);
        assert_eq!(STAND_IN.spherical_triangle(&sheet, surface), None);
        assert_eq!(PUBLISHED.spherical_triangle(&sheet, surface), None);
    }
    let spheres = (0..4_000)
        .map(case)
        .filter(|case| case.sheet.kind == SPHERE);
    let mut seen = 0;
    for case in spheres {
        assert_eq!(STAND_IN.spherical_triangle(&case.sheet, case.surface), None);
        seen += 1;
    }
    assert!(seen >= 200);
}

/// `point` is `pick` at phase 0, on a torus then at the other phase.
#[test]
fn point_is_pick_with_the_torus_retry() {
    let mut retried = 0;
    for case in (0..400).map(case) {
        let pick = |phase| STAND_IN.pick(&case.sheet, phase, case.surface).point;
        let mut expected = pick(0);
        if expected.is_none() && case.sheet.kind == TORUS {
            expected = pick(1);
            retried += usize::from(expected.is_some());
        }
        let point = STAND_IN.point(&case.sheet, case.surface).point;
        assert_eq!(
            point.map(|p| p.map(f64::to_bits)),
            expected.map(|p| p.map(f64::to_bits))
        );
    }
    assert!(retried >= 5);
}

/// On a sphere's face of three sides `point` is the triangle, and where that has none
/// `pick` on the chart, whatever the sides' carriers are.
#[test]
fn point_tries_the_triangle_first() {
    let (mut triangles, mut charts) = (0, 0);
    for face in (0..2_400).map(face) {
        let Some(triangle) = &face.triangle else {
            continue;
        };
        let (centre, radius, sense) = (triangle.centre, triangle.radius, face.sheet.sense);
        let sides = &triangle.sides;
        let (middle, _) = STAND_IN.triangle(centre, radius, u32::from(sense), sides);
        let on_chart = || STAND_IN.pick(&face.sheet, 0, face.surface).point;
        let expected = middle.or_else(on_chart);
        let point = STAND_IN.point_of_triangle(&face.sheet, face.surface, triangle);
        assert_eq!(
            point.point.map(|p| p.map(f64::to_bits)),
            expected.map(|p| p.map(f64::to_bits))
        );
        triangles += usize::from(middle.is_some());
        charts += usize::from(middle.is_none() && expected.is_some());
    }
    assert!(triangles >= 100 && charts >= 100, "{triangles}, {charts}");
}

/// As published, with the standard library's hypot: the same faces get a point,
/// save where a threshold falls between the two. Equal bits are not asked for.
#[test]
fn the_published_copy_runs() {
    let mut both = 0;
    let mut apart = 0;
    for case in (0..400).map(case) {
        let stand_in = STAND_IN.pick(&case.sheet, case.phase, case.surface).point;
        let published = PUBLISHED.pick(&case.sheet, case.phase, case.surface).point;
        both += usize::from(stand_in.is_some() && published.is_some());
        apart += usize::from(stand_in.is_some() != published.is_some());
    }
    println!("{both} answered by both, {apart} by one alone");
    assert!(both >= 160 && apart <= 40);
}
