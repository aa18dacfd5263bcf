//! Drawings of sheets: those of the repository, and what is to be seen of others.

mod common;

use std::fs;

use common::{
    between, flat, inner_band, picture_path, plate_a, rectangle, sample, square, written, SAMPLES,
};
use facepoint::{picture, Face, Kind, Refusal, Sense, Sheet};

/// `draw samples/NAME.sheet docs/pictures/NAME.svg` makes them anew.
#[test]
fn pictures_of_the_repository_are_drawn_so() {
    for name in ["plate-b", "plate-c", "panel"] {
        let committed = fs::read_to_string(picture_path(name)).expect("a committed picture");
        assert!(picture::svg(&sample(name), name) == committed, "{name}");
    }
}

fn drawn(face: &Face) -> String {
    picture::svg(&written(face), "a face")
}

#[test]
fn answers_are_told() {
    let text = picture::svg(&sample("plate-b"), "plate-b");
    assert!(text.contains(">Point (0.15625, 0.15625, 0)</text>"));
    assert!(text.contains(">clearance 0.132583 of the box · 705 of 961 grid points"));
    let text = drawn(&between(Kind::Cylinder, Sense::Forward, 0.0, 1.0));
    assert!(text.contains(">Point at u 0.19635, v 0.5</text>"));
    let text = drawn(&inner_band());
    assert!(text.contains(" · phase 1</text>"));
    assert!(text.contains(">Point at u 0.19635, v -3.14159</text>"));
}

#[test]
fn refusals_are_named() {
    let mut far = plate_a();
    far.rings[0].coedges[0].points[1][0] = f64::NAN;
    let mut open = plate_a();
    open.rings[0].coedges[3].points[16] = [0.5, 0.5];
    let mut deviating = flat().ring(square(0.0, 0.02));
    deviating.rings[0].coedges[0].deviation = 0.0015;
    let mut crowded = flat();
    crowded.rings = vec![square(0.0, 1.0); 20];
    let mut absent = inner_band();
    absent.sense = Sense::Absent;
    for (face, refusal) in [
        (flat(), Refusal::RingCount),
        (crowded, Refusal::RingCount),
        (flat().ring(vec![]), Refusal::CoedgeCount),
        (far, Refusal::Number),
        (
            between(Kind::Torus, Sense::Forward, 0.1, 3.9),
            Refusal::Band,
        ),
        (
            flat().ring(rectangle([0.0, 0.5], [1.0, 0.5])),
            Refusal::Scale,
        ),
        (open, Refusal::Join),
        (absent, Refusal::NoneClear),
        (deviating, Refusal::TooClose),
    ] {
        let text = drawn(&face);
        let name = format!(">Refusal {} · {refusal:?}</text>", refusal.number());
        assert!(text.contains(&name), "{refusal}");
        assert!(!text.contains("<ellipse"), "{refusal}");
    }
}

/// Any bytes get a picture, whatever is left of a sheet in them: damaged at every
/// place of head, plane and first coedge's start, and here and there behind.
#[test]
fn every_sheet_is_drawn() {
    let bytes = sample("plate-a").bytes().to_vec();
    let text = picture::svg(&Sheet::from_bytes(&bytes[..3]), "cut");
    assert!(text.contains(">Refusal 1 · Length</text>"));
    for place in (0..105).chain((105..bytes.len()).step_by(23)) {
        for byte in [0, 4, 0x7f, 0xff] {
            let mut bytes = bytes.clone();
            bytes[place] = byte;
            let text = picture::svg(&Sheet::from_bytes(bytes), "damaged");
            assert!(!text.contains("NaN") && !text.contains("inf"));
            assert!(text.ends_with("</svg>\n"));
        }
    }
}

/// A ring for each path of a colour of its own.
#[test]
fn rings_have_different_colours() {
    let text = picture::svg(&sample("panel"), "panel");
    let of_rings = text
        .lines()
        .filter(|line| line.contains(r#"stroke-width="2.5""#));
    let mut colours: Vec<&str> = of_rings
        .filter_map(|line| line.split(r#"stroke=""#).nth(1)?.split('"').next())
        .collect();
    assert_eq!(colours.len(), 9);
    colours.sort_unstable();
    colours.dedup();
    assert_eq!(colours.len(), 9);
}

/// 705 dots on the face and 256 beside it.
#[test]
fn grid_points_are_drawn() {
    for name in SAMPLES {
        let text = picture::svg(&sample(name), name);
        assert_eq!(text.matches("h0").count(), 961, "{name}");
    }
    let text = picture::svg(&sample("plate-b"), "plate-b");
    let off = text
        .lines()
        .find(|line| line.contains(r##"stroke="#d3d8de""##));
    assert_eq!(off.map(|line| line.matches("h0").count()), Some(256));
}

#[test]
fn titles_are_escaped() {
    let text = picture::svg(&sample("plate-a"), "<b> & \u{7}");
    assert!(text.contains("<title>&lt;b&gt; &amp; \u{fffd}</title>"));
}
