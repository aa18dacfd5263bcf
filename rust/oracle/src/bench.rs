//! The exported calls beside the original, in one process on the same sheets: bits
//! first, then time. Where bits differ nothing is timed and there is no ratio.

mod clock;
mod exported;
mod report;
pub mod sheets;

use std::cell::RefCell;

pub use clock::Times;
pub use report::Report;

use crate::convention::Callee;
use crate::original::{Prepared, PUBLISHED, RECORDED, STAND_IN};
use crate::recorder::Stage;
use crate::sheet::{Sheet, Uv, SAMPLES};
use clock::{race, Lane};
use exported::Exported;
use sheets::{Subject, SIZES};

/// The times of one sheet, on which all answers have the same bits.
#[derive(Clone, Debug)]
pub struct Row {
    pub name: String,
    pub segments: usize,
    /// The original as published, and with the stand-in for `hypot`.
    pub published: Times,
    pub stand_in: Times,
    /// What the original does where it asks the shims: a bound of their share.
    pub shims: Times,
    pub exported: Times,
    /// Chart, evaluation and image pick of a curved sheet, each by itself.
    pub parts: Option<[Times; 3]>,
}

impl Row {
    /// How many times longer the original takes, without what the shims may take of
    /// it: by the least times and by the medians.
    pub fn ratio(&self, original: Times) -> Times {
        Times {
            least: (original.least - self.shims.least) / self.exported.least,
            median: (original.median - self.shims.median) / self.exported.median,
        }
    }
}

/// Compares the answers on a sheet and times them; what differs, if anything does.
pub fn measured(subject: &Subject, callee: Callee, rounds: usize) -> Result<Row, String> {
    let exported = compared(subject, callee)?;
    let evaluated = originals_agree(subject, exported.borrow().point())?;
    let original = Prepared::new(&subject.sheet, 0, subject.surface);
    let opened = Prepared::new(&opened(subject)?, 0, subject.surface);

    let set_scene = || original.set_scene();
    let asked = || (opened.pick(&PUBLISHED), opened.evaluate(&evaluated));
    let lanes = [
        Lane::with(set_scene, || original.pick(&PUBLISHED)),
        Lane::with(set_scene, || original.pick(&STAND_IN)),
        Lane::with(|| opened.set_scene(), asked),
        Lane::new(|| exported.borrow_mut().call()),
    ];
    let [published, stand_in, shims, whole] = race(lanes, rounds);
    let parts = (!subject.is_plane()).then(|| parts(&exported, rounds));
    exported.borrow().agrees()?;
    Ok(Row {
        name: subject.name.clone(),
        segments: subject.segments(),
        published,
        stand_in,
        shims,
        exported: whole,
        parts,
    })
}

/// The exported calls, once made, with the bits that they must have. Several lanes
/// share them.
fn compared<'a>(subject: &Subject, callee: Callee<'a>) -> Result<RefCell<Exported<'a>>, String> {
    let mut exported = Exported::new(subject, callee)?;
    exported.call();
    exported.agrees()?;
    Ok(RefCell::new(exported))
}

fn parts(exported: &RefCell<Exported>, rounds: usize) -> [Times; 3] {
    let lanes = [
        Lane::new(|| exported.borrow_mut().chart()),
        Lane::new(|| exported.borrow_mut().evaluate()),
        Lane::new(|| exported.borrow_mut().pick()),
    ];
    race(lanes, rounds)
}

/// Both copies must answer this point. A point comes from the chosen grid point by
/// the evaluator alone, so that another choice shows in it. Gives the u and v at
/// which the original evaluates the surface.
fn originals_agree(subject: &Subject, point: [u64; 3]) -> Result<Vec<Uv>, String> {
    let mut evaluated = Vec::new();
    for (name, copy) in [("as published", PUBLISHED), ("with the stand-in", STAND_IN)] {
        let run = copy.pick(&subject.sheet, 0, subject.surface);
        let theirs = run.point.map(|point| point.map(f64::to_bits));
        if theirs != Some(point) {
            return Err(format!("the original {name} gives {:?}", run.point));
        }
        evaluated = run.calls;
    }
    Ok(evaluated)
}

/// The sheet with its last join open: the original walks all rows, gathers and moves
/// all points, looks at all joins and refuses before its grid.
fn opened(subject: &Subject) -> Result<Sheet, String> {
    let mut sheet = subject.sheet.clone();
    let ring = sheet.rings.last_mut().ok_or("a sheet without rings")?;
    let coedge = ring.0.last_mut().ok_or("a ring without coedges")?;
    coedge.points[SAMPLES - 1][1] += 0.01;
    match RECORDED.pick(&sheet, 0, subject.surface).record.stage {
        Stage::Check(13) => Ok(sheet),
        stage => Err(format!("with an open join the original stops at {stage:?}")),
    }
}

/// The exported plane pick on sheets with more and more segments: name, segments and
/// times of each.
#[derive(Clone, Debug)]
pub struct Growth(pub [(String, usize, Times); SIZES]);

impl Growth {
    /// The last sheet's time over the first's.
    pub fn ratio(&self) -> f64 {
        let [(.., first), .., (.., last)] = &self.0;
        last.least / first.least
    }
}

/// Compares the answers on the sheets of a series and times the exported pick.
pub fn growth(
    subjects: &[Subject; SIZES],
    callee: Callee,
    rounds: usize,
) -> Result<Growth, String> {
    let mut calls = Vec::new();
    for subject in subjects {
        let named = |found| format!("{}: {found}", subject.name);
        calls.push(compared(subject, callee).map_err(named)?);
    }
    let lane = |k: usize| {
        let exported = &calls[k];
        Lane::new(move || exported.borrow_mut().call())
    };
    let times = race(std::array::from_fn::<_, SIZES, _>(lane), rounds);
    for exported in &calls {
        exported.borrow().agrees()?;
    }
    Ok(Growth(std::array::from_fn(|k| {
        let subject = &subjects[k];
        (subject.name.clone(), subject.segments(), times[k])
    })))
}
