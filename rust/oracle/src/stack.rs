//! The stack that the exported calls take: every call with the largest that it may be
//! given, on a thread whose stack ends so many bytes below the call. One that takes
//! more ends the process, so a child process makes them (`measure_stack`).

use std::f64::consts::FRAC_PI_2;
use std::ffi::{c_int, c_void};
use std::hint::black_box;
use std::thread;

use crate::after::convention::Lent as AfterLent;
use crate::after::{Given as AfterGiven, Side};
use crate::archive;
use crate::bench::sheets::{band_with_holes, circle, six, six_small, Subject};
use crate::call::Given;
use crate::convention::Lent;
use crate::generate::largest;
use crate::sheet::{Plane, Ring, Sheet, CONE, CYLINDER, FORWARD, OTHER, PLANE, TORUS};
use crate::surface::Surface;
use facepoint_calls::RESULT_LENGTH;

/// One call with what it is given.
pub struct Trial {
    /// The exported name without its prefix.
    pub call: String,
    pub what: String,
    /// Whether it answers as it must.
    make: Box<dyn FnMut() -> bool + Send>,
}

impl Trial {
    /// Whether the call answers as it must, with so many bytes of stack. Where they
    /// are not enough the process ends.
    pub fn on_stack_of(&mut self, bytes: usize) -> bool {
        let make = &mut self.make;
        thread::scope(|scope| {
            let thread = thread::Builder::new().stack_size(ABOVE + bytes + BEYOND);
            let thread = thread.spawn_scoped(scope, || {
                let place = 0u8;
                let end = (address(&place) - bytes) / PAGE * PAGE;
                descend(end, bytes, make)
            });
            thread.expect("a thread").join().expect("no panic")
        })
    }
}

/// Room for the thread's own start, above the call.
const ABOVE: usize = 64 * 1024;
/// What is closed below the end of a call's stack: more than any call takes, so that
/// none steps over it, however large its frames are.
const BEYOND: usize = 1024 * 1024;
const PAGE: usize = 4096;

const CLOSED: c_int = 0;
const READ_AND_WRITE: c_int = 3;

extern "C" {
    fn mprotect(address: *mut c_void, length: usize, protection: c_int) -> c_int;
}

fn address(place: &u8) -> usize {
    black_box(place) as *const u8 as usize
}

/// Goes down the stack until at most `bytes` are left above `end`, closes what lies
/// below and makes the call.
#[inline(never)]
fn descend(end: usize, bytes: usize, make: &mut dyn FnMut() -> bool) -> bool {
    let place = 0u8;
    if address(&place) - end > bytes {
        let answer = descend(end, bytes, make);
        // Used after the call, so that this frame stays.
        address(&place);
        return answer;
    }
    protect(end, CLOSED);
    let answer = make();
    protect(end, READ_AND_WRITE);
    answer
}

fn protect(end: usize, protection: c_int) {
    // SAFETY: pages of this thread's own stack, below all that is in use; they are
    // opened again before the thread ends.
    let failed = unsafe { mprotect((end - BEYOND) as *mut c_void, BEYOND, protection) };
    assert_eq!(failed, 0, "mprotect");
}

/// Every exported call, with the largest sheets of each kind that reach the search,
/// with small ones, with the longest lists.
pub fn trials() -> Vec<Trial> {
    let mut trials = Vec::new();
    for subject in subjects() {
        trials.extend(on_sheet(&subject));
    }
    trials.extend(after());
    trials.extend(leaves());
    trials
}

fn subjects() -> Vec<Subject> {
    let curved = |name: String, kind: u8, rings: Vec<Ring>| {
        let surface = match kind {
            PLANE => Surface::Plane(Plane::FLAT),
            _ => Surface::Graph { factor: 1.0 },
        };
        Subject {
            name,
            sheet: Sheet::new(kind, FORWARD, rings),
            surface,
        }
    };
    let mut subjects = [six(), six_small()].concat();
    for kind in PLANE..=OTHER {
        let rings = largest().rings;
        subjects.push(curved(format!("16 rings of 8, kind {kind}"), kind, rings));
        let ring = circle(128, [0.5, 0.5], 0.5);
        subjects.push(curved(
            format!("1 ring of 128, kind {kind}"),
            kind,
            vec![ring],
        ));
        let ring = circle(16, [0.5, 0.5], 0.5);
        subjects.push(curved(
            format!("1 ring of 16, kind {kind}"),
            kind,
            vec![ring],
        ));
    }
    for kind in [CYLINDER, CONE, TORUS] {
        let name = format!("band of 16 rings, kind {kind}");
        subjects.push(curved(name, kind, band_with_holes()));
    }
    subjects
}

/// The calls on one sheet: plane pick, or chart and image pick at each phase; a plane
/// has all three.
fn on_sheet(subject: &Subject) -> Vec<Trial> {
    let Subject {
        name,
        sheet,
        surface,
    } = subject;
    let phases = if sheet.kind == TORUS { 0..=1 } else { 0..=0 };
    let mut trials = Vec::new();
    for phase in phases {
        let what = format!("{name}, phase {phase}");
        trials.push(on_lists("chart", what.clone(), &Given::chart(sheet, phase)));
        let given = Given::image_pick(sheet, phase, &images(sheet, phase, surface));
        trials.push(on_lists("image_pick", what, &given));
    }
    if subject.is_plane() {
        let given = Given::plane_pick(sheet);
        trials.push(on_lists("plane_pick", name.clone(), &given));
    }
    trials
}

fn on_lists(call: &str, what: String, given: &Given) -> Trial {
    let mut lent = Lent::new(given, RESULT_LENGTH);
    Trial {
        call: call.into(),
        what,
        make: Box::new(move || archive::made(&mut lent) == 0),
    }
}

/// What the chart writes and answers, on the surface.
fn images(sheet: &Sheet, phase: u32, surface: &Surface) -> Vec<f64> {
    let mut points = vec![0.0; 2 * sheet.point_count()];
    let mut result = [0.0; RESULT_LENGTH];
    archive::chart(&sheet.bytes(), phase, &mut points, &mut result);
    points.extend(&result[..2]);
    let image = |uv: &[f64]| surface.point(uv[0], uv[1]).expect("evaluated everywhere");
    points.chunks_exact(2).flat_map(image).collect()
}

/// The calls after the picker, with the longest lists that they take.
fn after() -> Vec<Trial> {
    let corner = |k: u32| [f64::from(k), f64::from(k % 2), 0.0];
    let corners: Vec<f64> = (0..128).flat_map(corner).collect();
    let on_a_line: Vec<f64> = (0..128).flat_map(|k| [f64::from(k), 0.0, 0.0]).collect();
    let heights: Vec<f64> = (0..256).map(f64::from).collect();
    // Sorting meets them the wrong way round.
    let angles: Vec<f64> = (0..256).rev().map(|k| f64::from(k) / 256.0).collect();
    let (u_axis, normal) = ([1.0, 0.0, 0.0], [0.0, 0.0, 1.0]);
    let transform = [1.0, 0.0, 0.0, 1.0, 0.0, 1.0, 0.0, 2.0, 0.0, 0.0, 1.0, 3.0];
    let direction = [[0.0; 3], [1.0; 3], [1.0; 3], [0.0; 3]];
    [
        ("one of 17", 0, AfterGiven::sample_parameter(0.0, 1.0, 5)),
        (
            "to reverse",
            0,
            AfterGiven::direction(direction.as_flattened()),
        ),
        ("octant", 0, octant()),
        (
            "128 corners",
            0,
            AfterGiven::point_on(&u_axis, &normal, &corners),
        ),
        (
            "128 on a line",
            21,
            AfterGiven::point_on(&u_axis, &normal, &on_a_line),
        ),
        (
            "256 of each",
            0,
            AfterGiven::cylinder_point(&heights, &angles),
        ),
        ("moved", 0, AfterGiven::placed(&transform, &[1.0; 3])),
    ]
    .map(|(what, status, given)| on_numbers(what, status, &given))
    .into()
}

fn octant() -> AfterGiven {
    let corner = |k: usize| [0, 1, 2].map(|axis| if axis == k % 3 { 1.0 } else { 0.0 });
    let side = |k: usize| Side {
        ends: [corner(k), corner(k + 1)],
        reversed: 0.0,
        circle_centre: [0.0; 3],
        circle_radius: 1.0,
        range: [0.0, FRAC_PI_2],
        evaluated: [corner(k), corner(k + 1)],
    };
    let sides: Vec<f64> = (0..3).flat_map(|k| side(k).numbers()).collect();
    AfterGiven::spherical_triangle(&[0.0; 3], 1.0, u32::from(FORWARD), &sides)
}

fn on_numbers(what: &str, status: u32, given: &AfterGiven) -> Trial {
    let mut lent = AfterLent::new(given, RESULT_LENGTH);
    Trial {
        call: given.call.to_string(),
        what: what.into(),
        make: Box::new(move || archive::after::made(&mut lent) == status),
    }
}

/// Root and round of numbers that take them the longest way.
fn leaves() -> [Trial; 4] {
    let leaf = |call: &str, x: f64, ours: fn(f64) -> f64, theirs: fn(f64) -> f64| Trial {
        call: call.into(),
        what: format!("{x:?}"),
        make: Box::new(move || ours(black_box(x)).to_bits() == theirs(x).to_bits()),
    };
    [
        leaf("root", 2.0, archive::root, f64::sqrt),
        leaf("root", f64::from_bits(1), archive::root, f64::sqrt),
        leaf("round", 0.5, archive::round, f64::round),
        leaf("round", -1e15 - 0.5, archive::round, f64::round),
    ]
}
