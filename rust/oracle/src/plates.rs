//! Calls that a person can check: the plates of document 01, its bad cuts, and
//! each refusal beside the neighbour that passes. No number of theirs comes from
//! a sine, so they are the same bytes on every machine.
//!
//! The file of plates is one record behind the other, every number big-endian:
//! the name in 32 bytes, with spaces behind it; the call (0 chart, 1 image pick,
//! 2 plane pick), the sheet's length, the phase and the list's length (u32 each);
//! the sheet; of image pick the images' bits.

mod picks;

use std::f64::consts::{PI, TAU};

use crate::call::{Call, Given, Judge, Left};
use crate::generate::largest;
use crate::sheet::{
    set_length, Ring, Sheet, Uv, ABSENT, CYLINDER, FORWARD, OTHER, REVERSED, SPHERE, TORUS,
};

/// The greatest magnitude of a coordinate or of the origin.
const FARTHEST: f64 = 1_048_576.0;
const NAME_BYTES: usize = 32;

/// A call with a name, and the status that document 01 gives it.
#[derive(Clone, Debug)]
pub struct Plate {
    pub name: String,
    pub status: u32,
    pub given: Given,
}

// The sheets.

/// From `low` to `high` both ways, a coedge for each side.
pub fn square(low: f64, high: f64) -> Ring {
    Ring::rectangle([low, low], [high, high])
}

pub fn plate_a() -> Sheet {
    Sheet::flat(vec![square(0.0, 1.0)])
}

/// Plate A with its last point elsewhere.
pub fn plate_a_ending_at(end: Uv) -> Sheet {
    let mut sheet = plate_a();
    sheet.rings[0].0[3].points[16] = end;
    sheet
}

pub fn plate_b() -> Sheet {
    Sheet::flat(vec![square(0.0, 1.0), square(0.25, 0.75)])
}

pub fn plate_c() -> Sheet {
    Sheet::flat(vec![square(0.0, 1.0), square(1.0 / 64.0, 63.0 / 64.0)])
}

/// Two of its corners are left as wide as each other; the grid's order decides.
pub fn two_holes() -> Sheet {
    Sheet::flat(vec![
        square(0.0, 1.0),
        square(1.0 / 16.0, 7.0 / 16.0),
        square(9.0 / 16.0, 15.0 / 16.0),
    ])
}

/// Once around at `v`, from u = 0.
pub fn around(v: f64) -> Ring {
    Ring::curve(1, |part| [TAU * part, v])
}

/// Two rings around, the one at `high` reversed.
pub fn band(kind: u8, sense: u8, low: f64, high: f64) -> Sheet {
    Sheet::new(kind, sense, vec![around(low), around(high).reversed()])
}

/// Across the seam of v, where the two rings are 5.6 apart at phase 0.
pub fn inner_band() -> Sheet {
    band(TORUS, FORWARD, 2.8, -2.8)
}

/// The largest sheet with one coedge more than is accepted.
pub fn above_largest() -> Sheet {
    let mut sheet = largest();
    let coedge = sheet.rings[15].0[7].clone();
    sheet.rings[15].0.push(coedge);
    sheet
}

/// Plate A as another kind or with another sense.
fn plate_a_as(kind: u8, sense: u8) -> Sheet {
    Sheet::new(kind, sense, plate_a().rings)
}

/// A square with so many rings in all, the others small ones of one coedge.
fn with_rings(count: usize) -> Sheet {
    let place = |k: usize| [0.2 + 0.2 * (k % 4) as f64, 0.2 + 0.15 * (k / 4) as f64];
    let small = (1..count).map(|k| Ring::square(1, place(k), 0.03));
    let rings = [Ring::square(1, [0.5, 0.5], 0.5)].into_iter().chain(small);
    Sheet::flat(rings.collect())
}

fn with_coedges_in_a_ring(count: usize) -> Sheet {
    let ring = Ring::square(count, [0.5, 0.5], 0.5);
    Sheet::new(OTHER, FORWARD, vec![ring])
}

/// A hole beside which one column of the grid is left, between 0 and `side`.
fn with_a_slot(side: f64) -> Sheet {
    let hole = Ring::rectangle([side, 1.0 / 64.0], [63.0 / 64.0, 63.0 / 64.0]);
    Sheet::flat(vec![square(0.0, 1.0), hole])
}

/// Two equal squares, covering nothing, and a dart around (0.5, 0.5), whose best
/// clearance is the distance from there to `notch` where that is about 0.01.
pub fn dart(notch: Uv) -> Vec<Ring> {
    let corners = [
        notch,
        [0.515, 0.47],
        [0.53, 0.53],
        [0.47, 0.53],
        [0.47, 0.49],
    ];
    vec![square(0.0, 1.0), square(0.0, 1.0), Ring::polygon(&corners)]
}

/// A point whose distance from (0.5, 0.5) is exactly 0.01 as it is computed.
const NOTCH: Uv = [0.49415, 0.491889667084515];

// The calls.

/// Every plate, in the file's order.
pub fn plates() -> Vec<Plate> {
    [chart_plates(), picks::pick_plates()].concat()
}

fn chart_plates() -> Vec<Plate> {
    [
        papers(),
        header(),
        blocks(),
        coordinates(),
        other_numbers(),
        phases_and_lists(),
        scales_and_joins(),
        clearances(),
        negative_zeros(),
        order_of_checks(),
        sizes(),
        bands(),
        tails(),
    ]
    .concat()
}

/// The sheet at phase 0 with a list of just the right length.
fn plate(name: &str, status: u32, sheet: Sheet) -> Plate {
    let given = Given::chart(&sheet, 0);
    Plate {
        name: name.into(),
        status,
        given,
    }
}

/// Plate A with its bytes changed; the length field is right for them.
fn damaged(name: &str, status: u32, change: fn(&mut Vec<u8>)) -> Plate {
    let mut plate = plate(name, status, plate_a());
    change(&mut plate.given.sheet);
    set_length(&mut plate.given.sheet);
    plate
}

/// Plate A, built anew by `change`.
fn changed(name: &str, status: u32, change: impl FnOnce(&mut Sheet)) -> Plate {
    let mut sheet = plate_a();
    change(&mut sheet);
    plate(name, status, sheet)
}

impl Plate {
    fn at_phase(mut self, phase: u32) -> Plate {
        self.given.phase = phase;
        self
    }

    fn with_room(mut self, change: fn(usize) -> usize) -> Plate {
        self.given.set_places(change(self.given.list.len()));
        self
    }

    fn with_bytes(mut self, sheet: Vec<u8>) -> Plate {
        self.given.sheet = sheet;
        self
    }
}

/// The plates and bad cuts of document 01.
fn papers() -> Vec<Plate> {
    let mut swapped = plate_b();
    swapped.rings.reverse();
    let off = |power: i32| plate_a_ending_at([0.0, 2.0f64.powi(power)]);
    vec![
        plate("plate A", 0, plate_a()),
        plate("plate B", 0, plate_b()),
        plate("plate B, rings swapped", 0, swapped),
        plate("plate C", 14, plate_c()),
        plate("two holes", 0, two_holes()),
        plate("cylinder", 0, band(CYLINDER, FORWARD, 0.0, 1.0)),
        plate("cylinder, v to 10", 0, band(CYLINDER, FORWARD, 0.0, 10.0)),
        plate(
            "rings around on a sphere",
            13,
            band(SPHERE, FORWARD, 0.0, 1.0),
        ),
        plate("plate A, last point 2^-13 off", 13, off(-13)),
        plate("plate A, last point 2^-14 off", 0, off(-14)),
    ]
}

/// Checks 1 to 3.
fn header() -> Vec<Plate> {
    let whole = plate_a().bytes();
    let field = |step: i32| {
        let length = (whole.len() - 4) as i32 + step;
        [&length.to_be_bytes()[..], &whole[4..]].concat()
    };
    let sheet = |name, status, bytes| plate(name, status, plate_a()).with_bytes(bytes);
    vec![
        sheet("0 bytes", 1, vec![]),
        sheet("7 bytes", 1, whole[..7].to_vec()),
        sheet("8 bytes", 5, vec![0, 0, 0, 4, 1, TORUS, FORWARD, 1]),
        sheet("length field one less", 1, field(-1)),
        sheet("length field one more", 1, field(1)),
        damaged("version 0", 2, |bytes| bytes[4] = 0),
        damaged("version 2", 2, |bytes| bytes[4] = 2),
        plate("kind 7", 3, plate_a_as(7, FORWARD)),
        plate("kind 6", 0, plate_a_as(OTHER, FORWARD)),
        plate("sense 3", 3, plate_a_as(0, 3)),
        plate("sense 2", 0, plate_a_as(0, REVERSED)),
    ]
}

/// Checks 4 to 6.
fn blocks() -> Vec<Plate> {
    vec![
        damaged("no rings", 4, |bytes| {
            bytes.truncate(80);
            bytes[7] = 0;
        }),
        plate("17 rings", 4, with_rings(17)),
        plate("16 rings", 0, with_rings(16)),
        damaged("a byte missing", 5, |bytes| {
            bytes.pop();
        }),
        damaged("a byte over", 5, |bytes| bytes.push(0)),
        damaged("a plane alone", 5, |bytes| bytes.truncate(80)),
        changed("a ring without coedges", 6, |sheet| {
            sheet.rings.push(Ring::default());
        }),
        plate("129 coedges in a ring", 6, with_coedges_in_a_ring(129)),
        plate("128 coedges in a ring", 0, with_coedges_in_a_ring(128)),
    ]
}

/// Check 7, chart coordinates.
fn coordinates() -> Vec<Plate> {
    let over = FARTHEST.next_up();
    let from_0 = |corner: f64| {
        let [low, high] = [corner.min(0.0), corner.max(0.0)];
        Sheet::flat(vec![square(low, high)])
    };
    // In the last coedge's middle, in v: no coordinate is left out.
    let with = |name, x: f64| changed(name, 7, |sheet| sheet.rings[0].0[3].points[8][1] = x);
    vec![
        plate("coordinates of 2^20", 0, from_0(FARTHEST)),
        plate("coordinates above 2^20", 7, from_0(over)),
        plate("coordinates of -2^20", 0, from_0(-FARTHEST)),
        plate("coordinates below -2^20", 7, from_0(-over)),
        with("a coordinate above 2^20", over),
        with("a coordinate NaN", f64::NAN),
        with("a coordinate infinite", f64::INFINITY),
        with("a coordinate minus infinite", f64::NEG_INFINITY),
    ]
}

/// Check 7, the plane and the deviations.
fn other_numbers() -> Vec<Plate> {
    let last_deviation = |name, status, deviation: f64| {
        changed(name, status, |sheet| {
            sheet.rings[0].0[3].deviation = deviation
        })
    };
    vec![
        changed("axis components of 2", 0, |sheet| {
            sheet.plane.u_axis = [2.0, -2.0, 2.0];
            sheet.plane.normal = [-2.0, 2.0, 2.0];
        }),
        changed("u axis above 2", 7, |sheet| {
            sheet.plane.u_axis[2] = -2.0f64.next_up();
        }),
        changed("normal above 2", 7, |sheet| {
            sheet.plane.normal[2] = 2.0f64.next_up();
        }),
        changed("origin of 2^20", 0, |sheet| {
            sheet.plane.origin = [FARTHEST, -FARTHEST, FARTHEST];
        }),
        changed("origin above 2^20", 7, |sheet| {
            sheet.plane.origin[0] = FARTHEST.next_up();
        }),
        last_deviation("deviation -0", 0, -0.0),
        last_deviation("deviation below 0", 7, -f64::from_bits(1)),
        last_deviation("deviation below 0.002", 0, 0.002f64.next_down()),
        last_deviation("deviation 0.002", 7, 0.002),
    ]
}

/// Checks 8 and 9. Plate A itself has a list of just the right length.
fn phases_and_lists() -> Vec<Plate> {
    let torus = || plate_a_as(TORUS, FORWARD);
    vec![
        plate("phase 2", 8, torus()).at_phase(2),
        plate("phase 2^32 - 1", 8, torus()).at_phase(u32::MAX),
        plate("phase 1 on a plane", 8, plate_a()).at_phase(1),
        plate("phase 1 on a torus", 0, torus()).at_phase(1),
        plate("list one short", 9, plate_a()).with_room(|room| room - 1),
        plate("list of 0", 9, plate_a()).with_room(|_| 0),
    ]
}

/// Checks 11 to 13.
fn scales_and_joins() -> Vec<Plate> {
    let torus_band = |high: f64| band(TORUS, FORWARD, 0.0, high);
    let flat = |u: f64, v: f64| Sheet::flat(vec![Ring::rectangle([0.0, 0.0], [u, v])]);
    let join = |gap: f64| plate_a_ending_at([0.0, gap]);
    let above = 1e-12f64.next_up();
    vec![
        plate("torus band of 3.2", 11, torus_band(3.2)),
        plate("torus band of PI", 11, torus_band(PI)),
        plate("torus band below PI", 0, torus_band(PI.next_down())),
        plate("u scale 1e-12", 12, flat(1e-12, 1.0)),
        plate("u scale above 1e-12", 0, flat(above, 1.0)),
        plate("v scale 1e-12", 12, flat(1.0, 1e-12)),
        plate("v scale above 1e-12", 0, flat(1.0, above)),
        plate("join of 1e-4", 0, join(1e-4)),
        plate("join above 1e-4", 13, join(1e-4f64.next_up())),
    ]
}

/// Check 14.
fn clearances() -> Vec<Plate> {
    let beside = [NOTCH[0], NOTCH[1].next_down()];
    let side = 1.0f64 / 32.0 + 0.01;
    vec![
        plate("slot below 0.01", 14, with_a_slot(side.next_down())),
        plate("slot above 0.01", 0, with_a_slot(side)),
        plate("clearance 0.01", 14, Sheet::flat(dart(NOTCH))),
        plate("clearance above 0.01", 0, Sheet::flat(dart(beside))),
    ]
}

/// A −0 is read as +0, and the list shows it.
fn negative_zeros() -> Vec<Plate> {
    vec![changed("plate A with -0 for 0", 0, |sheet| {
        let coordinates = sheet.points_mut().flatten();
        coordinates.filter(|x| **x == 0.0).for_each(|x| *x = -0.0);
    })]
}

/// Calls that fail several checks: the first of the table is the reason given.
fn order_of_checks() -> Vec<Plate> {
    let wide = || band(TORUS, FORWARD, 0.0, 3.2);
    let mut not_a_number = plate_a();
    not_a_number.rings[0].0[0].points[0][0] = f64::NAN;
    let mut empty_last = not_a_number.clone();
    empty_last.rings.push(Ring::default());
    let mut overrun_last = Sheet::flat(vec![Ring::default(), square(0.0, 1.0)]).bytes();
    overrun_last.pop();
    set_length(&mut overrun_last);
    let mut open_and_wide = wide();
    open_and_wide.rings[0].0[0].points[16][1] = 0.1;
    let mut open_and_narrow = Sheet::flat(vec![Ring::rectangle([0.0, 0.0], [1e-12, 1.0])]);
    open_and_narrow.rings[0].0[3].points[16][1] = 0.1;
    let mut open_and_thin = plate_c();
    open_and_thin.rings[0].0[3].points[16][1] = 0.1;
    vec![
        damaged("version 2, phase 2", 2, |bytes| bytes[4] = 2).at_phase(2),
        plate("ring 1 empty, ring 2 overruns", 5, plate_a()).with_bytes(overrun_last),
        plate("ring 1 NaN, ring 2 empty", 6, empty_last),
        plate("NaN, phase 2", 7, not_a_number).at_phase(2),
        plate("phase 2, list of 0", 8, plate_a())
            .at_phase(2)
            .with_room(|_| 0),
        plate("wide band, list one short", 9, wide()).with_room(|room| room - 1),
        plate("wide band with an open join", 11, open_and_wide),
        plate("narrow with an open join", 12, open_and_narrow),
        plate("plate C with an open join", 13, open_and_thin),
    ]
}

fn sizes() -> Vec<Plate> {
    vec![
        plate("largest sheet", 0, largest()),
        plate("largest sheet, a coedge more", 6, above_largest()),
    ]
}

fn bands() -> Vec<Plate> {
    let torus_band = |sense| band(TORUS, sense, 0.0, 3.1);
    vec![
        plate("torus band of 3.1, sense 1", 0, torus_band(FORWARD)),
        plate("torus band of 3.1, sense 0", 14, torus_band(ABSENT)),
        plate("torus band of 3.1, sense 2", 14, torus_band(REVERSED)),
        plate("inner band, phase 0", 11, inner_band()),
        plate("inner band, phase 1", 0, inner_band()).at_phase(1),
    ]
}

/// Lists longer than the points take.
fn tails() -> Vec<Plate> {
    let longer = |room: usize| room + 3;
    vec![
        plate("plate A, tail of 3", 0, plate_a()).with_room(longer),
        plate("plate C, tail of 3", 14, plate_c()).with_room(longer),
        plate("inner band, tail of 3", 0, inner_band())
            .at_phase(1)
            .with_room(longer),
    ]
}

// The file, and what a program that reads it prints.

/// A call as the file has it.
fn number_of(call: Call) -> u32 {
    match call {
        Call::Chart => 0,
        Call::ImagePick => 1,
        Call::PlanePick => 2,
    }
}

/// The bytes of the file of plates.
pub fn plates_file() -> Vec<u8> {
    let mut file = Vec::new();
    for plate in plates() {
        let given = &plate.given;
        file.extend(format!("{:NAME_BYTES$}", plate.name).bytes());
        file.extend(number_of(given.call).to_be_bytes());
        for number in [given.sheet.len(), given.phase as usize, given.list.len()] {
            file.extend((number as u32).to_be_bytes());
        }
        file.extend(&given.sheet);
        if given.call == Call::ImagePick {
            file.extend(given.list.iter().flat_map(|bits| bits.to_be_bytes()));
        }
    }
    file
}

impl Plate {
    /// What the model leaves behind, held against the original.
    pub fn judged(&self) -> Result<Left, String> {
        self.given.judged(&Judge::of(&self.given, self.status))
    }

    /// The plate's line: its name, the status, the five numbers of an answer, and
    /// of the chart a number that every place of the output list goes into.
    pub fn line(&self, left: &Left) -> String {
        let mut line = format!("{}: {}", self.name, left.status);
        if left.status == 0 {
            let [x, y, z, clearance, count] = left.numbers;
            let count = f64::from_bits(count);
            line += &format!(" {x:016X} {y:016X} {z:016X} {clearance:016X} {count}");
        }
        if self.given.call == Call::Chart {
            line += &format!(" {:016X}", written_sum(&left.list));
        }
        line
    }
}

/// The bits of each place k, counted from 0, times 2k + 1, added up modulo 2^64.
/// The weights are odd, so that a change of one bit anywhere changes the sum.
fn written_sum(list: &[u64]) -> u64 {
    let odd_numbers = (1u64..).step_by(2);
    odd_numbers.zip(list).fold(0, |sum, (weight, bits)| {
        sum.wrapping_add(weight.wrapping_mul(*bits))
    })
}
