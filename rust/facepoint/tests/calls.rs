//! The nine calls: their answers, and every refusal that can be reached through the
//! crate, each beside a neighbour that is not refused so.

mod common;

use std::f64::consts::PI;
use std::fs;

use common::{
    around, between, flat, inner_band, octant, plate_a, plate_b, rectangle, sample, sample_path,
    square, written, SAMPLES,
};
use facepoint::{
    chart, cylinder_point, direction, image_pick, placed, plane_pick, point_on, sample_parameter,
    spherical_triangle, Direction, Face, Kind, Middle, Phase, Pick, Refusal, Ring, Sense, Sheet,
    Side, Triangle, Xyz,
};

/// The whole output of the program `facepoint` for this answer.
fn line(answer: Result<Pick, Refusal>) -> String {
    match answer {
        Err(refusal) => format!("{}\n", refusal.number()),
        Ok(pick) => {
            let [x, y, z] = pick.point.map(f64::to_bits);
            let (clearance, count) = (pick.clearance.to_bits(), pick.count);
            format!("0 {x:016X} {y:016X} {z:016X} {clearance:016X} {count}\n")
        }
    }
}

#[test]
fn samples_give_their_lines() {
    for name in SAMPLES {
        let expected = fs::read_to_string(sample_path(name, "line")).expect("a committed line");
        assert_eq!(line(plane_pick(&sample(name))), expected, "{name}");
    }
}

#[test]
fn chart_writes_the_points_in_order() {
    let face = plate_b();
    let chart = chart(&written(&face), Phase::Zero).expect("plate B has a point");
    assert_eq!((chart.uv, chart.count), ([0.15625, 0.15625], 705));
    assert_eq!(chart.clearance, (18.0f64 / 1024.0).sqrt());
    let coedges = face.rings.iter().flat_map(|ring| &ring.coedges);
    let points: Vec<_> = coedges.flat_map(|coedge| coedge.points).collect();
    assert_eq!(chart.points, points);
}

/// Points are moved to the one before: the chart has no jump at the seam.
#[test]
fn chart_moves_points_by_turns() {
    let mut face = between(Kind::Cylinder, Sense::Forward, 0.0, 1.0);
    let points = &mut face.rings[0].coedges[0].points;
    points[8..].iter_mut().for_each(|[u, _]| *u -= 2.0 * PI);
    let moved = chart(&written(&face), Phase::Zero).expect("a tube has a point");
    let steps = moved.points[..17]
        .windows(2)
        .map(|pair| pair[1][0] - pair[0][0]);
    assert!(steps.into_iter().all(|step| (0.3..0.5).contains(&step)));
}

#[test]
fn image_pick_answers_the_last_image() {
    let sheet = written(&plate_b());
    let mut images = images_of(&sheet);
    let pick = image_pick(&sheet, Phase::Zero, &images);
    assert_eq!(pick, plane_pick(&sheet));
    *images.last_mut().expect("the point's") = [0.5, 0.5, 1.0];
    let pick = image_pick(&sheet, Phase::Zero, &images).expect("clear in space");
    assert_eq!((pick.point, pick.count), ([0.5, 0.5, 1.0], 705));
}

/// On the flat plane.
fn images_of(sheet: &Sheet) -> Vec<Xyz> {
    let chart = chart(sheet, Phase::Zero).expect("a point");
    let points = chart.points.iter().chain([&chart.uv]);
    points.map(|[u, v]| [*u, *v, 0.0]).collect()
}

/// All three calls on the bytes, with images of as many points as plate A has.
fn refusals(bytes: &[u8]) -> [Option<Refusal>; 3] {
    let sheet = Sheet::from_bytes(bytes);
    let images = images_of(&written(&plate_a()));
    [
        chart(&sheet, Phase::Zero).err(),
        image_pick(&sheet, Phase::Zero, &images).err(),
        plane_pick(&sheet).err(),
    ]
}

#[track_caller]
fn all_refuse(bytes: &[u8], number: u32) {
    assert_eq!(refusals(bytes), [Refusal::from_number(number); 3]);
}

#[test]
fn layouts_are_refused_by_1_to_6() {
    let bytes = written(&plate_a()).bytes().to_vec();
    assert_eq!(refusals(&bytes), [None; 3]);
    for length in [0, 4, 5, 6, 7, bytes.len() - 1] {
        all_refuse(&bytes[..length], 1);
    }
    all_refuse(&[&bytes[..], &[0]].concat(), 1);
    let with = |place: usize, byte: u8| {
        let mut bytes = bytes.clone();
        bytes[place] = byte;
        bytes
    };
    all_refuse(&with(4, 2), 2);
    all_refuse(&with(5, 7), 3);
    all_refuse(&with(6, 3), 3);
    all_refuse(&with(7, 0), 4);
    all_refuse(&with(7, 17), 4);
    all_refuse(&with(7, 2), 5);
    all_refuse(&with(80, 3), 5);
    all_refuse(written(&plate_a().ring(vec![])).bytes(), 6);
    let coedge = square(0.0, 1.0).coedges[0];
    all_refuse(written(&flat().ring(vec![coedge; 129])).bytes(), 6);
}

#[test]
fn numbers_are_refused_by_7() {
    let change = |change: &dyn Fn(&mut Face)| {
        let mut face = plate_a();
        change(&mut face);
        refusals(written(&face).bytes())
    };
    for deviation in [-1e-300, 0.002, f64::NAN, f64::INFINITY] {
        let refused = change(&|face| face.rings[0].coedges[3].deviation = deviation);
        assert_eq!(refused, [Some(Refusal::Number); 3], "{deviation}");
    }
    for u in [f64::NAN, f64::NEG_INFINITY, 1_048_577.0] {
        let refused = change(&|face| face.rings[0].coedges[1].points[5][0] = u);
        assert_eq!(refused, [Some(Refusal::Number); 3], "{u}");
    }
    let kept = change(&|face| face.rings[0].coedges[3].deviation = -0.0);
    assert_eq!(kept, [None; 3]);
    let kept = change(&|face| face.rings[0].coedges[0].points[0] = [-0.0; 2]);
    assert_eq!(kept, [None; 3]);
}

#[test]
fn phases_and_kinds_are_refused_by_8() {
    let plane = written(&plate_a());
    let images = images_of(&plane);
    assert_eq!(chart(&plane, Phase::One), Err(Refusal::Phase));
    let refused = image_pick(&plane, Phase::One, &images);
    assert_eq!(refused, Err(Refusal::Phase));
    let tube = written(&between(Kind::Cylinder, Sense::Forward, 0.0, 1.0));
    assert_eq!(plane_pick(&tube), Err(Refusal::Phase));
}

#[test]
fn images_are_refused_by_10() {
    let sheet = written(&plate_a());
    let mut images = images_of(&sheet);
    let pick = |images: &[Xyz]| image_pick(&sheet, Phase::Zero, images);
    assert_eq!(pick(&[]), Err(Refusal::Images));
    assert_eq!(pick(&images[1..]), Err(Refusal::Images));
    assert_eq!(pick(&images).map(|pick| pick.count), Ok(961));
    images[7][2] = f64::NAN;
    assert_eq!(pick(&images), Err(Refusal::Images));
    images[7][2] = 1_073_741_824.0;
    assert_ne!(pick(&images), Err(Refusal::Images));
    images.push([0.0; 3]);
    assert_eq!(pick(&images), Err(Refusal::Images));
}

#[test]
fn charts_are_refused_by_11_to_14() {
    let refused = |face: &Face| chart(&written(face), Phase::Zero).err();
    assert_eq!(refused(&inner_band()), Some(Refusal::Band));
    let line = flat().ring(rectangle([0.0, 0.5], [1.0, 0.5]));
    assert_eq!(refused(&line), Some(Refusal::Scale));
    let mut open = plate_a();
    open.rings[0].coedges[3].points[16] = [0.0, 1.0 / 8192.0];
    assert_eq!(refused(&open), Some(Refusal::Join));
    open.rings[0].coedges[3].points[16] = [0.0, 1.0 / 16384.0];
    assert_eq!(refused(&open), None);
    let sheet = sample("plate-c");
    assert_eq!(chart(&sheet, Phase::Zero).err(), Some(Refusal::NoneClear));
}

#[test]
fn picks_are_refused_by_15() {
    let mut face = flat().ring(square(0.0, 0.02));
    assert!(plane_pick(&written(&face)).is_ok());
    face.rings[0].coedges[0].deviation = 0.0015;
    let sheet = written(&face);
    assert_eq!(plane_pick(&sheet), Err(Refusal::TooClose));
    let pick = image_pick(&sheet, Phase::Zero, &images_of(&sheet));
    assert_eq!(pick, Err(Refusal::TooClose));
    assert!(chart(&sheet, Phase::Zero).is_ok());
}

/// 16 rings and 128 coedges, the outer square walked seventeen times.
#[test]
fn largest_sheet_is_charted_whole() {
    let sides = square(0.0, 1.0).coedges;
    let outside: Ring = sides.iter().copied().cycle().take(17 * 4).collect();
    let mut face = flat().ring(outside);
    for k in 0..15 {
        let low = f64::from(k) / 16.0;
        face = face.ring(rectangle([low, 0.5], [low + 0.03125, 0.75]));
    }
    let sheet = written(&face);
    assert_eq!(sheet.bytes().len(), 35_936);
    let chart = chart(&sheet, Phase::Zero).expect("room below the holes");
    assert_eq!(chart.points.len(), 128 * 17);
    assert_eq!(chart.points.last(), Some(&[0.875, 0.5]));
}

#[test]
fn parameters_of_samples() {
    assert_eq!(sample_parameter([2.0, 4.0], 0), Ok(2.0));
    assert_eq!(sample_parameter([2.0, 4.0], 4), Ok(2.5));
    assert_eq!(sample_parameter([4.0, 2.0], 16), Ok(2.0));
    for (range, n) in [([0.0, 1.0], 17), ([0.0, f64::NAN], 0)] {
        assert_eq!(sample_parameter(range, n), Err(Refusal::Argument));
    }
}

#[test]
fn directions_of_trims() {
    let (from, to) = ([1.0, 2.0, 3.0], [4.0, 5.0, 6.0]);
    let far = [4.0, 5.0, 6.001];
    let answer = |reverse, keep| Ok(Direction { reverse, keep });
    assert_eq!(direction([from, to], [from, to]), answer(false, true));
    assert_eq!(direction([to, from], [from, to]), answer(true, true));
    assert_eq!(direction([from, far], [from, to]), answer(false, false));
    // The last image is nearer to the start, though the end is farther from the first.
    let on_axis = |x: f64| [x, 0.0, 0.0];
    let images = [on_axis(0.0), on_axis(1.0)];
    let ends = [on_axis(0.6), on_axis(5.0)];
    assert_eq!(direction(images, ends), answer(true, false));
    let nowhere = [f64::INFINITY, 0.0, 0.0];
    let refused = direction([from, to], [from, nowhere]);
    assert_eq!(refused, Err(Refusal::Argument));
}

#[test]
fn triangles_of_a_sphere() {
    let middle = [1.0 / 3.0f64.sqrt(); 3];
    let forward = |triangle: &Triangle| spherical_triangle(triangle, Sense::Forward);
    let whole = octant();
    assert_eq!(forward(&whole), Ok(middle));
    let mut turned = whole;
    turned.sides[1].ends.reverse();
    turned.sides[1].evaluated.reverse();
    assert_eq!(forward(&turned), Err(Refusal::Gap));
    turned.sides[1].reversed = true;
    assert_eq!(forward(&turned), Ok(middle));
    for sense in [Sense::Reversed, Sense::Absent] {
        let refused = spherical_triangle(&whole, sense);
        assert_eq!(refused, Err(Refusal::NoInterior), "{sense:?}");
    }
    // The middle goes by the ends, and not by what was evaluated near them.
    let mut near = whole;
    near.sides[0].evaluated[0][0] += 5e-6;
    assert_eq!(forward(&near), Ok(middle));
    let mut side_off = whole;
    side_off.sides[2].circle_centre = [0.0, 0.0, 1e-3];
    assert_eq!(forward(&side_off), Err(Refusal::Side));
    let no_radius = Triangle {
        radius: 0.0,
        ..whole
    };
    assert_eq!(forward(&no_radius), Err(Refusal::Argument));
}

#[test]
fn triangles_stand_anywhere() {
    let moved = |p: Xyz| [p[0] + 1.0, p[1] + 2.0, p[2] + 3.0];
    let mut triangle = octant();
    triangle.centre = moved(triangle.centre);
    for side in &mut triangle.sides {
        side.ends = side.ends.map(moved);
        side.circle_centre = moved(side.circle_centre);
        side.evaluated = side.evaluated.map(moved);
    }
    let middle = spherical_triangle(&triangle, Sense::Forward);
    assert_eq!(middle, Ok(moved([1.0 / 3.0f64.sqrt(); 3])));
}

/// Every number of a side has its own place in the call's list.
#[test]
fn every_number_of_a_side_is_looked_at() {
    let changes: [fn(&mut Side); 6] = [
        |side| side.ends[0][1] = f64::NAN,
        |side| side.ends[1][2] = f64::NAN,
        |side| side.circle_centre[0] = f64::NAN,
        |side| side.circle_radius = f64::NAN,
        |side| side.range[1] = f64::NAN,
        |side| side.evaluated[1][2] = f64::NAN,
    ];
    for change in changes {
        let mut triangle = octant();
        change(&mut triangle.sides[2]);
        let refused = spherical_triangle(&triangle, Sense::Forward);
        assert_eq!(refused, Err(Refusal::Argument));
    }
}

#[test]
fn vertex_fallback() {
    let (u_axis, normal) = ([1.0, 0.0, 0.0], [0.0, 0.0, 1.0]);
    let corners = [
        [3.0, 1.0, 4.0],
        [6.0, 0.0, 4.0],
        [3.0, 8.0, 4.0],
        [0.0, 0.0, 4.0],
    ];
    let point = |corners: &[Xyz]| point_on(u_axis, normal, corners);
    // The middle of the first corner with its neighbours lies outside of the dart.
    assert_eq!(point(&corners), Ok([4.0, 3.0, 4.0]));
    assert_eq!(point(&corners[..2]), Err(Refusal::CornerCount));
    assert_eq!(point(&[corners[0]; 129]), Err(Refusal::CornerCount));
    assert_eq!(point(&[corners[0]; 3]), Err(Refusal::NoTriple));
    assert_eq!(point(&[[f64::NAN; 3]; 4]), Err(Refusal::Argument));
}

#[test]
fn round_fallback() {
    let (angle, height) = (PI, 0.5);
    let middle = cylinder_point(&[2.0, -1.0, 2.0], &[0.0, 0.0]);
    assert_eq!(middle, Ok(Middle { angle, height }));
    assert_eq!(cylinder_point(&[], &[0.0]), Err(Refusal::Heights));
    assert_eq!(cylinder_point(&[1.0], &[0.0]), Err(Refusal::Heights));
    assert_eq!(cylinder_point(&[0.0, 1.0], &[]), Err(Refusal::Middle));
    let refused = cylinder_point(&[0.0, f64::NAN], &[0.0]);
    assert_eq!(refused, Err(Refusal::Argument));
}

#[test]
fn transforms() {
    let turn = [
        [0.0, -1.0, 0.0, 10.0],
        [1.0, 0.0, 0.0, 20.0],
        [0.0, 0.0, 1.0, 30.0],
    ];
    assert_eq!(placed(&turn, [1.0, 2.0, 3.0]), Ok([8.0, 21.0, 33.0]));
    let refused = placed(&turn, [f64::NAN, 0.0, 0.0]);
    assert_eq!(refused, Err(Refusal::Argument));
    let far = placed(&turn, [0.0, 0.0, f64::MAX]);
    assert_eq!(far, Ok([10.0, 20.0, f64::MAX]));
    let refused = placed(&[[f64::MAX; 4]; 3], [1.0; 3]);
    assert_eq!(refused, Err(Refusal::NotFinite));
}

/// Rings in another order give the same bits.
#[test]
fn order_of_rings_plays_no_part() {
    let mut face = sample("panel").face().expect("a layout that reads");
    let first = plane_pick(&written(&face));
    face.rings.reverse();
    assert_eq!(plane_pick(&written(&face)), first);
    let mut face = between(Kind::Cylinder, Sense::Absent, 0.0, 1.0).ring(around(2.0));
    let first = chart(&written(&face), Phase::Zero).map(|chart| (chart.uv, chart.count));
    face.rings.rotate_left(1);
    let turned = chart(&written(&face), Phase::Zero).map(|chart| (chart.uv, chart.count));
    assert_eq!(turned, first);
}
