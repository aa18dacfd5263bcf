//! Faces written as sheets and read back, and what cannot be written.

mod common;

use common::{flat, plate_a, plate_b, plate_c, sample, square, written, SAMPLES};
use facepoint::{
    plane_pick, BuildError, Coedge, Face, Kind, Plane, Refusal, Ring, Sense, Sheet, Uv,
};

#[test]
fn plates_are_the_samples() {
    let plates = [plate_a(), plate_b(), plate_c()];
    for (face, name) in plates.iter().zip(SAMPLES) {
        assert_eq!(written(face), sample(name), "{name}");
    }
}

#[test]
fn samples_are_read_back() {
    for name in SAMPLES {
        let sheet = sample(name);
        let face = sheet.face().expect("a layout that reads");
        assert_eq!(written(&face), sheet, "{name}");
    }
    let panel = sample("panel").face().expect("a layout that reads");
    assert_eq!(panel.rings.len(), 9);
}

#[test]
fn every_kind_and_sense_is_written_and_read() {
    let kinds = [
        Kind::Plane(Plane::XY),
        Kind::Cylinder,
        Kind::Cone,
        Kind::Sphere,
        Kind::Torus,
        Kind::Nurbs,
        Kind::Other,
    ];
    for (code, kind) in kinds.into_iter().enumerate() {
        for (number, sense) in [Sense::Absent, Sense::Forward, Sense::Reversed]
            .into_iter()
            .enumerate()
        {
            let face = Face::new(kind, sense).ring(square(0.0, 1.0));
            let sheet = written(&face);
            let codes = [code, number].map(|code| code as u8);
            assert_eq!(sheet.bytes()[5..7], codes);
            let plane = if code == 0 { 72 } else { 0 };
            assert_eq!(sheet.bytes().len(), 8 + plane + 1 + 4 * 280);
            assert_eq!(sheet.face(), Some(face));
        }
    }
}

/// −0, NaN and numbers beyond the limits go on the sheet with their bits.
#[test]
fn numbers_are_written_as_they_are() {
    let odd = [-0.0, f64::NAN, f64::INFINITY, 1e300, f64::from_bits(1), 0.1];
    let mut face = plate_a();
    let points = &mut face.rings[0].coedges[2].points;
    for (point, x) in points.iter_mut().zip(odd) {
        *point = [x, -x];
    }
    let read = written(&face).face().expect("a layout that reads");
    let bits = |face: &Face| {
        let points = face.rings[0].coedges[2].points;
        points
            .as_flattened()
            .iter()
            .map(|x| x.to_bits())
            .collect::<Vec<_>>()
    };
    assert_eq!(bits(&read), bits(&face));
    assert_eq!(plane_pick(&written(&face)), Err(Refusal::Number));
}

#[test]
fn coedges_have_17_points() {
    let points = [[1.0, 2.0]; 18];
    for count in [0, 1, 16, 18] {
        let coedge = Coedge::from_points(0.0, &points[..count]);
        assert_eq!(coedge, Err(BuildError::PointCount(count)));
    }
    let coedge = Coedge::from_points(0.5, &points[..17]);
    assert!(coedge.is_ok_and(|coedge| coedge.deviation == 0.5));
}

#[test]
fn lines_have_their_ends() {
    let [from, to] = [[0.1, 0.7], [0.3, 0.9]];
    let line = Coedge::line(from, to);
    assert_eq!((line.points[0], line.points[16]), (from, to));
    let back = line.reversed();
    assert_eq!((back.points[0], back.points[16]), (to, from));
    assert_eq!(Coedge::line([0.0; 2], [1.0; 2]).points[8], [0.5; 2]);
}

#[test]
fn reversed_rings_are_closed() {
    let ring = square(0.0, 1.0).reversed();
    let next = ring.coedges.iter().cycle().skip(1);
    for (coedge, next) in ring.coedges.iter().zip(next) {
        assert_eq!(coedge.points[16], next.points[0]);
    }
    let ends: Vec<Uv> = ring.coedges.iter().map(|coedge| coedge.points[0]).collect();
    assert_eq!(ends, [[0.0, 0.0], [0.0, 1.0], [1.0, 1.0], [1.0, 0.0]]);
}

#[test]
fn counts_fit_a_byte() {
    let coedge = Coedge::line([0.0; 2], [1.0; 2]);
    let of = |rings: usize, coedges: usize| {
        let mut face = flat();
        face.rings = vec![Ring::from(vec![coedge; coedges]); rings];
        face
    };
    assert_eq!(of(256, 0).sheet(), Err(BuildError::TooManyRings(256)));
    let (ring, coedges) = (0, 256);
    let too_many = Err(BuildError::TooManyCoedges { ring, coedges });
    assert_eq!(of(2, 256).sheet(), too_many);
    // What can be written is the picker's to judge.
    assert_eq!(plane_pick(&written(&of(255, 1))), Err(Refusal::RingCount));
    assert_eq!(plane_pick(&written(&of(1, 255))), Err(Refusal::CoedgeCount));
    assert_eq!(plane_pick(&written(&flat())), Err(Refusal::RingCount));
}

#[test]
fn build_errors_say_what_is_wrong() {
    let shown = BuildError::PointCount(3).to_string();
    assert_eq!(shown, "a coedge has 17 points, and 3 were given");
    let shown = BuildError::TooManyRings(300).to_string();
    assert_eq!(shown, "a sheet has at most 255 rings, and the face has 300");
}

/// Bytes that no face writes have no face, and calls refuse them.
#[test]
fn other_bytes_have_no_face() {
    let bytes = written(&plate_a()).bytes().to_vec();
    assert!(Sheet::from_bytes(bytes.clone()).face().is_some());
    for length in [0, 7, 8, 79, 80, 81, bytes.len() - 1] {
        assert_eq!(Sheet::from_bytes(&bytes[..length]).face(), None);
    }
    for (place, byte) in [(3, 0), (4, 0), (5, 7), (6, 3), (7, 0), (7, 2), (80, 5)] {
        let mut bytes = bytes.clone();
        bytes[place] = byte;
        let sheet = Sheet::from_bytes(bytes);
        assert_eq!(sheet.face(), None, "byte {place}");
        assert!(plane_pick(&sheet).is_err());
    }
}
