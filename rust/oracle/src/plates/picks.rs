//! Plates of both picks: what document 01 prints of A, B and C, each refusal that
//! the picks add or order beside the neighbour that passes, and the sheets that
//! every call refuses.

use super::{
    above_largest, around, band, chart_plates, damaged, dart, inner_band, plate, plate_a,
    plate_a_as, plate_a_ending_at, plate_b, plate_c, square, two_holes, Plate, NOTCH,
};
use crate::call::{Call, Given};
use crate::generate::{largest, on_flat_plane};
use crate::sheet::{Plane, Ring, Sheet, CYLINDER, FORWARD, OTHER, PLANE, REVERSED, SAMPLES, TORUS};

/// The greatest magnitude of an image's coordinate.
const FARTHEST_IMAGE: f64 = 1_073_741_824.0;
/// Far from the last image, for any limit of check 15.
const FAR: f64 = 1024.0;

pub(super) fn pick_plates() -> Vec<Plate> {
    [
        papers(),
        planes(),
        damaged_sheets(),
        kinds_and_phases(),
        image_lists(),
        image_numbers(),
        charts(),
        clearances_of_planes(),
        clearances_of_images(),
        order_of_checks(),
        sizes(),
    ]
    .concat()
}

// One pick, and changes of it.

fn pick(name: &str, status: u32, given: Given) -> Plate {
    let by_images = given.call == Call::ImagePick;
    let name = format!("{}: {name}", if by_images { "image" } else { "plane" });
    Plate {
        name,
        status,
        given,
    }
}

/// Image pick at phase 0, with images on the flat plane.
fn image(name: &str, status: u32, sheet: &Sheet) -> Plate {
    pick(name, status, on_flat_plane(Call::ImagePick, sheet, 0))
}

fn plane(name: &str, status: u32, sheet: &Sheet) -> Plate {
    pick(name, status, Given::plane_pick(sheet))
}

fn both(name: &str, status: u32, sheet: &Sheet) -> [Plate; 2] {
    [image(name, status, sheet), plane(name, status, sheet)]
}

/// Image pick with images of which the last is the origin and the nearest segment
/// of the others is so far from it.
fn near(name: &str, status: u32, sheet: &Sheet, distance: f64) -> Plate {
    let images = near_images(sheet, distance);
    pick(name, status, Given::image_pick(sheet, 0, &images))
}

/// The near segment is the last ring's last, from its end to its start: rings that
/// are joined or cut elsewhere do not have it. All others are far.
fn near_images(sheet: &Sheet, distance: f64) -> Vec<f64> {
    let points = |ring: &Ring| SAMPLES * ring.0.len();
    let (last, before) = sheet.rings.split_last().expect("a ring");
    let far = before.iter().map(points).sum();
    let mut images = vec![[-FAR, 0.0, 0.0]; far];
    images.push([distance, FAR, 0.0]);
    images.extend(vec![[8.0 * FAR, 0.0, 0.0]; points(last) - 2]);
    images.push([distance, -FAR, 0.0]);
    images.push([0.0; 3]);
    images.concat()
}

impl Plate {
    /// With the images changed.
    fn with_images(mut self, change: impl FnOnce(&mut Vec<u64>)) -> Plate {
        change(&mut self.given.list);
        self
    }
}

// The sheets.

/// Plate B, its hole of one coedge: the two rings have other numbers of points.
fn plate_b_of_one_coedge() -> Sheet {
    let hole = Ring::square(1, [0.5, 0.5], 0.25);
    Sheet::flat(vec![square(0.0, 1.0), hole])
}

fn on_plane(mut sheet: Sheet, u_axis: [f64; 3], normal: [f64; 3]) -> Sheet {
    sheet.plane = Plane {
        origin: [1.0, -2.0, 3.0],
        u_axis,
        normal,
    };
    sheet
}

/// A u axis that is no unit, and a normal that is not across it.
fn skew(sheet: Sheet) -> Sheet {
    on_plane(sheet, [1.5, -0.5, 0.25], [0.25, 1.25, -0.75])
}

/// The deviation in the last coedge of the last ring, half of it in the others.
fn deviating(mut sheet: Sheet, deviation: f64) -> Sheet {
    sheet.set_deviation(deviation / 2.0);
    let ring = sheet.rings.last_mut().expect("a ring");
    ring.0.last_mut().expect("a coedge").deviation = deviation;
    sheet
}

/// A square walked three times, whose middle is so far from its sides.
fn thrice(reach: f64) -> Sheet {
    Sheet::flat(vec![square(0.0, 2.0 * reach); 3])
}

// The calls.

/// Plates A, B and C, and the rings of B in either order with their images.
fn papers() -> Vec<Plate> {
    let swapped = |mut sheet: Sheet| {
        sheet.rings.reverse();
        sheet
    };
    let one = plate_b_of_one_coedge;
    [
        both("plate A", 0, &plate_a()),
        both("plate B", 0, &plate_b()),
        both("plate B, rings swapped", 0, &swapped(plate_b())),
        both("one-coedge hole", 0, &one()),
        both("one-coedge hole, swapped", 0, &swapped(one())),
        both("plate C", 14, &plate_c()),
        both("two holes", 0, &two_holes()),
    ]
    .concat()
}

/// The plane stand-in.
fn planes() -> Vec<Plate> {
    let normal = [0.0, 0.0, 1.0];
    let reversed = Sheet {
        sense: REVERSED,
        ..plate_b()
    };
    let negative_zeros = on_plane(plate_a(), [1.0, -0.0, -0.0], [-0.0, -0.0, 1.0]);
    let twos = on_plane(plate_a(), [2.0, -2.0, 2.0], [-2.0, 2.0, 2.0]);
    vec![
        plane("plate A on a skew plane", 0, &skew(plate_a())),
        plane("plate B on a skew plane", 0, &skew(plate_b())),
        plane("sense 2", 0, &reversed),
        plane("axes with -0", 0, &negative_zeros),
        plane("axis components of 2", 0, &twos),
        plane(
            "u axis is the normal",
            15,
            &on_plane(plate_a(), normal, normal),
        ),
        plane("u axis of 0", 15, &on_plane(plate_a(), [0.0; 3], normal)),
    ]
}

/// Checks 1 to 7 in both picks, on sheets of the chart's plates. Their points are
/// as many as plate A's.
fn damaged_sheets() -> Vec<Plate> {
    let names = [
        "0 bytes",
        "length field one more",
        "version 2",
        "kind 7",
        "sense 3",
        "no rings",
        "a byte over",
        "a plane alone",
        "a ring without coedges",
        "a coordinate NaN",
        "a coordinate above 2^20",
        "origin above 2^20",
        "deviation 0.002",
    ];
    let of_chart = chart_plates();
    let sheet = |name: &str| {
        let found = of_chart.iter().find(|plate| plate.name == name);
        found.expect("a plate of the chart")
    };
    let picks = names.map(|name| {
        let Plate { status, given, .. } = sheet(name);
        both(name, *status, &plate_a()).map(|plate| plate.with_bytes(given.sheet.clone()))
    });
    picks.concat()
}

/// Check 8.
fn kinds_and_phases() -> Vec<Plate> {
    let torus = plate_a_as(TORUS, FORWARD);
    let mut plates = vec![
        image("phase 2", 8, &torus).at_phase(2),
        image("phase 2^32 - 1", 8, &torus).at_phase(u32::MAX),
        image("phase 1 on a plane", 8, &plate_a()).at_phase(1),
        pick(
            "phase 1 on a torus",
            0,
            on_flat_plane(Call::ImagePick, &torus, 1),
        ),
        image("kind 6", 0, &plate_a_as(OTHER, FORWARD)),
    ];
    for kind in PLANE + 1..=OTHER {
        let name = format!("kind {kind}");
        plates.push(plane(&name, 8, &plate_a_as(kind, FORWARD)));
    }
    plates
}

/// Check 10, lengths. Plate A's list is of the right length.
fn image_lists() -> Vec<Plate> {
    let of = |name, change: fn(usize) -> usize| {
        image(name, 10, &plate_a()).with_images(|images| {
            let length = change(images.len());
            images.resize(length, 0);
        })
    };
    vec![
        of("list one short", |length| length - 1),
        of("list one long", |length| length + 1),
        of("list three long", |length| length + 3),
        of("no last image", |length| length - 3),
        of("list of 0", |_| 0),
        of("list as for the chart", |length| 2 * (length / 3 - 1)),
    ]
}

/// Check 10, numbers: in the first image, in the last one and between. A NaN has
/// many patterns.
fn image_numbers() -> Vec<Plate> {
    let over = FARTHEST_IMAGE.next_up();
    let with = |name, status, place: fn(&[u64]) -> usize, number: f64| {
        image(name, status, &plate_a()).with_images(|images| {
            let place = place(images);
            images[place] = number.to_bits();
        })
    };
    let first = |_: &[u64]| 0;
    let middle = |images: &[u64]| images.len() / 2;
    let last = |images: &[u64]| images.len() - 1;
    vec![
        with("NaN", 10, middle, f64::NAN),
        with(
            "first NaN",
            10,
            first,
            f64::from_bits(0x7FF0_0000_0000_0001),
        ),
        with("last NaN", 10, last, f64::from_bits(u64::MAX)),
        with("infinite", 10, middle, f64::INFINITY),
        with("last infinite", 10, last, f64::INFINITY),
        with("minus infinite", 10, middle, f64::NEG_INFINITY),
        with("above 2^30", 10, middle, over),
        with("first below -2^30", 10, first, -over),
        with("last above 2^30", 10, last, over),
        with("last below -2^30", 10, last, -over),
        with("first of 2^30", 0, first, FARTHEST_IMAGE),
        with("first of -2^30", 0, first, -FARTHEST_IMAGE),
        with("last of 2^30", 0, last, FARTHEST_IMAGE),
        with("last of -2^30", 0, last, -FARTHEST_IMAGE),
        with("last with -0", 0, last, -0.0),
    ]
}

/// Checks 11 to 14, and charts of other kinds. A narrow chart passes where its
/// images are wide; on a plane it is narrow in space too.
fn charts() -> Vec<Plate> {
    let flat = |u: f64| Sheet::flat(vec![Ring::rectangle([0.0, 0.0], [u, 1.0])]);
    let join = |gap: f64| plate_a_ending_at([0.0, gap]);
    let beside = [NOTCH[0], NOTCH[1].next_down()];
    let narrow = flat(1e-12f64.next_up());
    let inner = on_flat_plane(Call::ImagePick, &inner_band(), 1);
    [
        vec![
            image("cylinder", 0, &band(CYLINDER, FORWARD, 0.0, 1.0)),
            image("torus band of 3.2", 11, &band(TORUS, FORWARD, 0.0, 3.2)),
            image("torus band of 3.1", 0, &band(TORUS, FORWARD, 0.0, 3.1)),
            image("inner band, phase 0", 11, &inner_band()),
            pick("inner band, phase 1", 0, inner),
            near("u scale above 1e-12", 0, &narrow, 1.0),
            plane("u scale above 1e-12", 15, &narrow),
        ],
        both("u scale 1e-12", 12, &flat(1e-12)).into(),
        both("join above 1e-4", 13, &join(1e-4f64.next_up())).into(),
        both("join of 1e-4", 0, &join(1e-4)).into(),
        both("clearance 0.01", 14, &Sheet::flat(dart(NOTCH))).into(),
        both("clearance above 0.01", 0, &Sheet::flat(dart(beside))).into(),
    ]
    .concat()
}

/// Check 15 on a plane, by 1e-7 and by 8 deviations.
fn clearances_of_planes() -> Vec<Plate> {
    let eighth = 2.0f64.powi(-10);
    let by_deviation = |reach: f64| deviating(thrice(reach), eighth);
    let of_first = |reach: f64| {
        let mut sheet = thrice(reach);
        sheet.rings[0].0[0].deviation = eighth;
        sheet
    };
    let (low, high) = (1e-7f64, 8.0 * eighth);
    vec![
        plane("1e-7 away", 15, &thrice(low)),
        plane("above 1e-7 away", 0, &thrice(low.next_up())),
        plane("8 deviations away", 15, &by_deviation(high)),
        plane("above 8 deviations away", 0, &by_deviation(high.next_up())),
        plane("8 first deviations away", 15, &of_first(high)),
        plane("above 8 first deviations", 0, &of_first(high.next_up())),
    ]
}

/// Check 15 by images, the near segment in the last ring's last place; and with
/// the rings in the other order.
fn clearances_of_images() -> Vec<Plate> {
    let sheet = plate_b_of_one_coedge;
    let eighth = 2.0f64.powi(-10);
    let deviating = deviating(sheet(), eighth);
    let swapped = |plate: Plate| {
        let given = plate.given.reordered(&[1, 0]).expect("two rings");
        Plate { given, ..plate }
    };
    let (low, high) = (1e-7f64, 8.0 * eighth);
    vec![
        near("1e-7 away", 15, &sheet(), low),
        near("above 1e-7 away", 0, &sheet(), low.next_up()),
        near("8 deviations away", 15, &deviating, high),
        near("above 8 deviations away", 0, &deviating, high.next_up()),
        swapped(near("at the limit, swapped", 15, &deviating, high)),
        swapped(near(
            "above the limit, swapped",
            0,
            &deviating,
            high.next_up(),
        )),
        image("last is the first", 15, &plate_a()).with_images(|images| {
            let last = images.len() - 3;
            images.copy_within(..3, last);
        }),
    ]
}

/// Calls that fail several checks: the first of the table is the reason given.
fn order_of_checks() -> Vec<Plate> {
    let none = |plate: Plate| plate.with_images(Vec::clear);
    let short = |plate: Plate| {
        plate.with_images(|images| {
            images.pop();
        })
    };
    let not_a_number = |plate: Plate| plate.with_images(|images| images[0] = f64::NAN.to_bits());
    let wide = band(TORUS, FORWARD, 0.0, 3.2);
    let narrow = Sheet::flat(vec![Ring::rectangle([0.0, 0.0], [1e-12, 1.0])]);
    let open = plate_a_ending_at([0.0, 0.1]);
    let mut open_and_thin = plate_c();
    open_and_thin.rings[0].0[3].points[16][1] = 0.1;
    let narrow_cylinder = Sheet::new(CYLINDER, FORWARD, narrow.rings.clone());
    let version = damaged("version 2", 2, |bytes| bytes[4] = 2).given.sheet;
    let far = plate("far", 7, Sheet::flat(vec![around(2e6)])).given.sheet;
    let normal = [0.0, 0.0, 1.0];
    vec![
        none(image("version 2, list of 0", 2, &plate_a()).with_bytes(version)),
        none(image("far point, list of 0", 7, &plate_a()).with_bytes(far)),
        none(image("phase 2, list of 0", 8, &plate_a()).at_phase(2)),
        short(image("wide band, list one short", 10, &wide)),
        not_a_number(image("wide band, NaN", 10, &wide)),
        short(image("u scale 1e-12, one short", 10, &narrow)),
        not_a_number(image("u scale 1e-12, NaN", 10, &narrow)),
        short(image("open join, list one short", 10, &open)),
        not_a_number(image("open join, NaN", 10, &open)),
        short(image("plate C, list one short", 10, &plate_c())),
        not_a_number(image("plate C, NaN", 10, &plate_c())),
        not_a_number(near("1e-7 away, NaN", 10, &plate_b(), 1e-7)),
        near("plate C, 1e-7 away", 14, &plate_c(), 1e-7),
        plane("u scale 1e-12, kind 1", 8, &narrow_cylinder),
        plane("plate C, open join", 13, &open_and_thin),
        plane(
            "plate C on a line",
            14,
            &on_plane(plate_c(), normal, normal),
        ),
    ]
}

fn sizes() -> Vec<Plate> {
    [
        both("largest sheet", 0, &largest()),
        both("largest and a coedge", 6, &above_largest()),
    ]
    .concat()
}
