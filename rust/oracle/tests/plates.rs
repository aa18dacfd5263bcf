//! The plates of document 01, its bad cuts and examples beside them, on the
//! model and on the original; and the committed file of plates.

use std::collections::BTreeSet;
use std::f64::consts::PI;
use std::fs;
use std::path::Path;

use oracle::call::{Call, Given};
use oracle::compare::{difference, original_run};
use oracle::generate::Case;
use oracle::model::{Answer, Fault, Model, MODEL};
use oracle::original::STAND_IN;
use oracle::plates::{
    band, inner_band, plate_a, plate_a_ending_at, plate_b, plate_c, plates, plates_file, two_holes,
    Plate,
};
use oracle::sheet::{Ring, Sheet, Uv, ABSENT, CYLINDER, FORWARD, PLANE, REVERSED, SPHERE, TORUS};
use oracle::surface::Surface;

/// The sheet on a surface of its kind.
fn case(sheet: &Sheet, phase: u32) -> Case {
    let surface = match sheet.kind {
        PLANE => Surface::Plane(sheet.plane),
        CYLINDER => Surface::Cylinder { radius: 2.0 },
        TORUS => Surface::Torus {
            major: 5.0,
            minor: 2.0,
        },
        _ => Surface::Graph { factor: 1.0 },
    };
    Case {
        family: "plate",
        sheet: sheet.clone(),
        phase,
        surface,
    }
}

/// The model's chart, held against the original's run first.
fn chart(sheet: &Sheet, phase: u32) -> Answer {
    let case = case(sheet, phase);
    assert_eq!(difference(&case, &original_run(&case), MODEL), None);
    chart_of(MODEL, sheet, phase)
}

fn chart_of(model: Model, sheet: &Sheet, phase: u32) -> Answer {
    let mut output = vec![0.0; 2 * sheet.point_count()];
    model.chart(&sheet.bytes(), phase, &mut output)
}

fn point(u: f64, v: f64, clearance: f64, count: u32) -> (u32, [u64; 5]) {
    point_in_space([u, v, 0.0], clearance, count)
}

fn point_in_space([x, y, z]: [f64; 3], clearance: f64, count: u32) -> (u32, [u64; 5]) {
    let answer = Answer::Point {
        x,
        y,
        z,
        clearance,
        count,
    };
    answer.numbers()
}

fn refused(number: u32) -> (u32, [u64; 5]) {
    Answer::Refused(number).numbers()
}

#[test]
fn inside_of_the_square() {
    let ring = [[0.0, 0.0], [1.0, 0.0], [1.0, 1.0], [0.0, 1.0]];
    for (p, inside) in [([0.5, 0.0], true), ([0.5, 1.0], false)] {
        assert_eq!(MODEL.inside(&ring, p), inside);
        assert_eq!((STAND_IN.inside)(&ring, p), inside);
    }
}

#[test]
fn winding_of_a_ring_around() {
    let ring: Vec<Uv> = [0.0, 0.25, 0.5, 0.75].map(|u| [u, 0.5]).into();
    let reversed: Vec<Uv> = ring.iter().rev().copied().collect();
    let rows = [(&ring, 0.75, 1), (&ring, 0.25, 0), (&reversed, 0.75, -1)];
    for (ring, v, winding) in rows {
        let p = [0.375, v];
        assert_eq!(MODEL.periodic_winding(ring, p, 1.0), winding);
        assert_eq!(
            (STAND_IN.periodic_winding)(std::slice::from_ref(ring), p, 1.0),
            winding
        );
    }
}

#[test]
fn plate_a_is_answered_as_the_program_prints_it() {
    let sheet = plate_a();
    assert_eq!(chart(&sheet, 0).numbers(), point(0.5, 0.5, 0.5, 961));
    let candidate = original_run(&case(&sheet, 0)).record.candidate;
    assert_eq!(candidate, Some([0.5, 0.5]));
    let (status, [x, y, z, clearance, count]) = MODEL.plane_pick(&sheet.bytes()).numbers();
    let count = f64::from_bits(count);
    let line = format!("{status} {x:016X} {y:016X} {z:016X} {clearance:016X} {count}");
    let printed = "0 3FE0000000000000 3FE0000000000000 0000000000000000 3FE0000000000000 961";
    assert_eq!(line, printed);
}

#[test]
fn plate_a_with_its_last_point_off() {
    let ending_at = |v: f64| chart(&plate_a_ending_at([0.0, v]), 0).numbers();
    assert_eq!(ending_at(2.0f64.powi(-13)), refused(13));
    assert_eq!(ending_at(2.0f64.powi(-14)).0, 0);
}

#[test]
fn plate_b_in_either_order() {
    let mut sheet = plate_b();
    let expected = point(0.15625, 0.15625, (18.0f64 / 1024.0).sqrt(), 705);
    for _ in 0..2 {
        assert_eq!(chart(&sheet, 0).numbers(), expected);
        assert_eq!(MODEL.plane_pick(&sheet.bytes()).numbers(), expected);
        sheet.rings.reverse();
    }
}

#[test]
fn plate_c_leaves_no_clear_point() {
    let sheet = plate_c();
    assert_eq!(chart(&sheet, 0).numbers(), refused(14));
    assert_eq!(MODEL.plane_pick(&sheet.bytes()).numbers(), refused(14));
}

/// The sheet's answer, and what the cut makes of it.
fn cut(sheet: &Sheet, expected: (u32, [u64; 5]), fault: Fault) -> (u32, [u64; 5]) {
    assert_eq!(chart(sheet, 0).numbers(), expected);
    let cut = chart_of(Model::with(fault), sheet, 0).numbers();
    assert_ne!(cut, expected, "{fault:?} changes nothing");
    cut
}

#[test]
fn bad_cuts_on_a_plane() {
    cut(
        &two_holes(),
        point(0.28125, 0.71875, 0.28125, 673),
        Fault::VOuterLoop,
    );
    let expected = point(0.15625, 0.15625, (18.0f64 / 1024.0).sqrt(), 705);
    cut(&plate_b(), expected, Fault::LastOfEqualClearances);
}

#[test]
fn bad_cuts_on_a_cylinder() {
    let low = band(CYLINDER, FORWARD, 0.0, 1.0);
    let expected = point(0.19634954084936207, 0.5, 0.5, 961);
    cut(&low, expected, Fault::InsideOnCylinder);
    let toward_first = cut(&low, expected, Fault::MovedTowardFirst);
    assert_eq!(f64::from_bits(toward_first.1[0]), -2.945243112740431);
    let high = band(CYLINDER, FORWARD, 0.0, 10.0);
    cut(
        &high,
        point(0.19634954084936207, 5.0, 0.5, 961),
        Fault::VScaleCapped,
    );
}

#[test]
fn bad_cut_on_a_sphere() {
    let sheet = band(SPHERE, FORWARD, 0.0, 1.0);
    let cut = cut(&sheet, refused(13), Fault::JoinTurnOnSphere);
    assert_eq!(cut, refused(14));
}

/// Two steps of exactly half a turn, there and back: rounded away from zero
/// both go down, and the ring ends a turn from where it began.
#[test]
fn halves_are_rounded_away() {
    let mut ring = Ring::rectangle([0.0, 0.0], [PI, 1.0]);
    for coedge in &mut ring.0 {
        let end = coedge.points[16];
        coedge.points[1..].fill(end);
    }
    let sheet = Sheet::new(SPHERE, FORWARD, vec![ring]);
    let (status, [u, ..]) = cut(&sheet, refused(13), Fault::HalvesToEven);
    assert_eq!((status, f64::from_bits(u)), (0, PI / 2.0));
}

#[test]
fn torus_bands_by_sense_and_height() {
    let status = |sense, high| chart(&band(TORUS, sense, 0.0, high), 0).numbers().0;
    assert_eq!(status(FORWARD, 3.1), 0);
    assert_eq!(status(ABSENT, 3.1), 14);
    assert_eq!(status(REVERSED, 3.1), 14);
    assert_eq!(status(FORWARD, 3.2), 11);
}

#[test]
fn inner_torus_band_needs_phase_1() {
    let sheet = inner_band();
    assert_eq!(chart(&sheet, 0).numbers(), refused(11));
    let (status, [_, v, ..]) = chart(&sheet, 1).numbers();
    assert_eq!((status, f64::from_bits(v)), (0, -3.1415926535897927));
}

#[test]
fn the_last_image_is_answered_with_its_zeros() {
    let sheet = plate_a();
    let mut images: Vec<f64> = Vec::new();
    for p in sheet.coedges().flat_map(|coedge| coedge.points) {
        images.extend([p[0], p[1], 0.0]);
    }
    images.extend([0.5, 0.5, -0.0]);
    let (status, numbers) = MODEL.image_pick(&sheet.bytes(), 0, &images).numbers();
    let expected = [0.5, 0.5, -0.0, 0.5, 961.0].map(f64::to_bits);
    assert_eq!((status, numbers), (0, expected));
}

// The file of plates.

fn named(name: &str) -> Plate {
    let found = plates().into_iter().find(|plate| plate.name == name);
    found.unwrap_or_else(|| panic!("no plate is called {name}"))
}

#[test]
fn the_committed_file_is_the_makers() {
    let data = Path::new(env!("CARGO_MANIFEST_DIR")).join("../../crates/plates/data");
    let committed = fs::read(data.join("plates")).expect("the committed file of plates");
    assert!(committed == plates_file(), "run make_plates");
}

/// What the proved program has to print is what model and original say.
#[test]
fn the_programs_output_is_the_oracles() {
    let stdout = Path::new(env!("CARGO_MANIFEST_DIR")).join("../../crates/plates/stdout");
    let expected =
        fs::read_to_string(stdout).expect("the output that the program plates must write");
    let lines: Vec<String> = plates()
        .iter()
        .map(|plate| plate.line(&plate.judged().expect("model and original agree")))
        .collect();
    assert_eq!(expected, lines.join("\n") + "\n");
}

#[test]
fn names_are_short_and_told_apart() {
    let plates = plates();
    let names: BTreeSet<&str> = plates.iter().map(|plate| plate.name.as_str()).collect();
    assert_eq!(names.len(), plates.len());
    for name in names {
        assert!(name.len() <= 32 && name.trim() == name, "{name}");
        assert!(name.bytes().all(|b| b == b' ' || b.is_ascii_graphic()));
    }
}

/// By hand from the table of refusals, by the model, and by the original where
/// it can answer; each refusal of each call is among them.
#[test]
fn every_plate_has_its_status() {
    let mut seen = Vec::new();
    for plate in plates() {
        let left = plate
            .judged()
            .unwrap_or_else(|e| panic!("{}: {e}", plate.name));
        assert_eq!(left.status, plate.status, "{}", plate.name);
        assert!(plate.given.sheet.len() <= 40_000 && plate.given.list.len() <= 6_600);
        seen.push((plate.given.call, left.status));
    }
    for call in Call::ALL {
        let of_call = seen.iter().filter(|(of, _)| *of == call);
        let statuses: BTreeSet<u32> = of_call.map(|(_, status)| *status).collect();
        let all: BTreeSet<u32> = [0].iter().chain(call.refusals()).copied().collect();
        assert_eq!(statuses, all, "{call}");
    }
}

/// What document 01 and its bad cuts print, and what follows by hand.
#[test]
fn plates_have_the_numbers_of_the_papers() {
    let b = point(0.15625, 0.15625, (18.0f64 / 1024.0).sqrt(), 705);
    let middle = point(0.5, 0.5, 0.5, 961);
    let turn = 0.19634954084936207;
    let inner = point(turn, -3.1415926535897927, 0.5, 961);
    let rows = [
        ("plate A", middle),
        ("plate A, tail of 3", middle),
        ("plate A, last point 2^-14 off", middle),
        ("plate A with -0 for 0", middle),
        ("128 coedges in a ring", middle),
        ("plate B", b),
        ("plate B, rings swapped", b),
        ("plate C", refused(14)),
        ("two holes", point(0.28125, 0.71875, 0.28125, 673)),
        ("cylinder", point(turn, 0.5, 0.5, 961)),
        ("cylinder, v to 10", point(turn, 5.0, 0.5, 961)),
        ("rings around on a sphere", refused(13)),
        ("torus band of 3.1, sense 1", point(turn, 1.55, 0.5, 961)),
        ("inner band, phase 0", refused(11)),
        ("inner band, phase 1", inner),
        ("inner band, tail of 3", inner),
        ("image: plate A", middle),
        ("plane: plate A", middle),
        ("image: plate B", b),
        ("plane: plate B", b),
        ("image: plate B, rings swapped", b),
        ("plane: plate B, rings swapped", b),
        ("image: plate C", refused(14)),
        ("plane: plate C", refused(14)),
        (
            "image: last with -0",
            point_in_space([0.5, 0.5, -0.0], 0.5, 961),
        ),
        (
            // (1, -2, 3) + 0.5 × (1.5, -0.5, 0.25) + 0.5 × (-0.0625, -1.1875, -2)
            "plane: plate A on a skew plane",
            point_in_space([1.71875, -2.84375, 2.125], 0.5, 961),
        ),
    ];
    for (name, expected) in rows {
        let left = named(name).judged().expect("model and original agree");
        assert_eq!((left.status, left.numbers), expected, "{name}");
    }
}

/// A plane's points are written as the sheet has them, a −0 as +0.
#[test]
fn plates_write_their_points() {
    let points: Vec<f64> = plate_a()
        .coedges()
        .flat_map(|c| c.points.concat())
        .collect();
    let bits: Vec<u64> = points.iter().map(|x| x.to_bits()).collect();
    for name in ["plate A", "plate A with -0 for 0"] {
        assert_eq!(named(name).judged().expect("agreed").list, bits);
    }
    let long = named("plate A, tail of 3").judged().expect("agreed").list;
    assert_eq!(long[..bits.len()], bits);
    assert_eq!(long[bits.len()..], [0x40C8_1C80_0000_0000; 3]);
}

/// The sizes that document 01 names.
#[test]
fn the_largest_sheet_is_the_documents() {
    for name in [
        "largest sheet",
        "image: largest sheet",
        "plane: largest sheet",
    ] {
        assert_eq!(named(name).given.sheet.len(), 35_936);
    }
    assert_eq!(named("image: largest sheet").given.list.len(), 3 * 2177);
    let more = named("largest sheet, a coedge more");
    assert_eq!(more.given.sheet.len(), 35_936 + 280);
}

/// Rings in the other order take their images with them.
#[test]
fn swapped_plates_have_their_images_swapped() {
    let pairs = [
        ("image: plate B", "image: plate B, rings swapped"),
        ("image: one-coedge hole", "image: one-coedge hole, swapped"),
        ("image: 8 deviations away", "image: at the limit, swapped"),
    ];
    for (first, second) in pairs {
        let (first, second) = (named(first).given, named(second).given);
        assert_ne!(first, second);
        assert_eq!(first.reordered(&[1, 0]), Some(second));
    }
}

/// Each refusal that a pick adds or makes for itself, beside a neighbour that
/// passes. A chart as narrow as check 12 asks is too near in space on any plane.
#[test]
fn picks_refuse_beside_neighbours_that_pass() {
    let rows = [
        (8, "image: phase 1 on a plane", "image: phase 1 on a torus"),
        (8, "plane: kind 1", "plane: plate A"),
        (10, "image: list one short", "image: plate A"),
        (10, "image: list one long", "image: plate A"),
        (10, "image: last above 2^30", "image: last of 2^30"),
        (10, "image: first below -2^30", "image: first of -2^30"),
        (11, "image: torus band of 3.2", "image: torus band of 3.1"),
        (12, "image: u scale 1e-12", "image: u scale above 1e-12"),
        (13, "image: join above 1e-4", "image: join of 1e-4"),
        (13, "plane: join above 1e-4", "plane: join of 1e-4"),
        (14, "image: clearance 0.01", "image: clearance above 0.01"),
        (14, "plane: clearance 0.01", "plane: clearance above 0.01"),
        (15, "image: 1e-7 away", "image: above 1e-7 away"),
        (15, "plane: 1e-7 away", "plane: above 1e-7 away"),
        (
            15,
            "image: 8 deviations away",
            "image: above 8 deviations away",
        ),
        (
            15,
            "plane: 8 deviations away",
            "plane: above 8 deviations away",
        ),
        (
            15,
            "image: at the limit, swapped",
            "image: above the limit, swapped",
        ),
    ];
    for (number, refused, passes) in rows {
        let [refused, passes] = [refused, passes].map(|name| named(name).judged());
        assert_eq!(refused.expect("agreed").status, number);
        assert_eq!(passes.expect("agreed").status, 0, "beside {number}");
    }
}

/// A list refused by 10 stands before what the sheet would be refused by.
#[test]
fn wrong_images_are_refused_before_the_chart() {
    let rows = [
        ("image: wide band, NaN", 11),
        ("image: u scale 1e-12, NaN", 12),
        ("image: open join, NaN", 13),
        ("image: plate C, NaN", 14),
        ("image: 1e-7 away, NaN", 15),
    ];
    for (name, status) in rows {
        let plate = named(name);
        assert_eq!(plate.status, 10, "{name}");
        let mut list = plate.given.list.clone();
        assert!(f64::from_bits(list[0]).is_nan());
        list[0] = (-1024.0f64).to_bits();
        let given = Given {
            list,
            ..plate.given
        };
        assert_eq!(given.left_by(MODEL).status, status, "{name}");
    }
}

/// The program's lines would show each of these faults.
#[test]
fn faults_of_the_picks_show_in_the_plates() {
    let in_picks = [
        Fault::PhysicalClearanceReported,
        Fault::DeviationOfFirstRing,
        Fault::DeviationFourTimes,
        Fault::PhysicalClearanceAtLimitPasses,
        Fault::AnswerIsFirstImage,
        Fault::PlaneCrossReversed,
    ];
    let plates = plates();
    let picks: Vec<&Plate> = plates
        .iter()
        .filter(|plate| plate.given.call != Call::Chart)
        .collect();
    for fault in in_picks.iter().chain(Fault::LISTS) {
        let model = Model::with(*fault);
        let shows = |plate: &&Plate| plate.given.left_by(model) != plate.given.left_by(MODEL);
        assert!(picks.iter().any(shows), "{fault:?}");
    }
}

#[test]
fn lines_show_the_answer_and_the_list() {
    let line = |name: &str| {
        let plate = named(name);
        plate.line(&plate.judged().expect("model and original agree"))
    };
    let half = "3FE0000000000000";
    let points = plate_a()
        .coedges()
        .flat_map(|c| c.points.concat())
        .collect::<Vec<f64>>();
    // The exact sum, which 128 bits hold.
    let sum: u128 = (0u128..)
        .zip(points)
        .map(|(k, x)| (2 * k + 1) * u128::from(x.to_bits()))
        .sum();
    let written = sum % (1 << 64);
    assert_eq!(
        line("plate A"),
        format!("plate A: 0 {half} {half} 0000000000000000 {half} 961 {written:016X}")
    );
    // The first 272 odd numbers, which make 272 squared, times what was there.
    let kept = (272 * 272 * 0x40C8_1C80_0000_0000u128) % (1 << 64);
    assert_eq!(line("plate C"), format!("plate C: 14 {kept:016X}"));
    // A pick has no list to show.
    let zero = "0000000000000000";
    for pick in ["image", "plane"] {
        assert_eq!(
            line(&format!("{pick}: plate A")),
            format!("{pick}: plate A: 0 {half} {half} {zero} {half} 961")
        );
        assert_eq!(
            line(&format!("{pick}: plate C")),
            format!("{pick}: plate C: 14")
        );
    }
}
