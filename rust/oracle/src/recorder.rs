//! What the recorded copy of the original reports while it runs; build.rs inserts
//! the calls. One record for each thread, as the original runs on its caller's.

use std::cell::Cell;

/// How far the original came.
#[derive(Clone, Copy, Debug, PartialEq, Eq)]
pub enum Stage {
    /// Still gathering the points of the edges, or before any check that is recorded.
    Rings,
    /// Before this check of document 01 (11 to 15, 17 to 19, 23) was decided.
    Check(u32),
    /// Evaluating the chosen point or the boundary.
    Evaluating,
}

#[derive(Clone, Copy, Debug)]
pub struct Record {
    pub stage: Stage,
    /// Covered grid points.
    pub covered: u32,
    /// The greatest clearance of a covered grid point.
    pub clearance: f64,
    /// The chosen grid point.
    pub candidate: Option<[f64; 2]>,
}

const EMPTY: Record = Record {
    stage: Stage::Rings,
    covered: 0,
    clearance: 0.0,
    candidate: None,
};

thread_local! {
    static RECORD: Cell<Record> = const { Cell::new(EMPTY) };
}

fn change(change: impl FnOnce(&mut Record)) {
    RECORD.with(|cell| {
        let mut record = cell.get();
        change(&mut record);
        cell.set(record);
    });
}

pub(crate) fn reset() {
    RECORD.with(|cell| cell.set(EMPTY));
}

pub(crate) fn record() -> Record {
    RECORD.with(Cell::get)
}

pub(crate) fn reached(check: u32) {
    change(|record| record.stage = Stage::Check(check));
}

pub(crate) fn covered() {
    change(|record| record.covered += 1);
}

pub(crate) fn searched(clearance: f64) {
    change(|record| record.clearance = clearance);
}

pub(crate) fn chosen(candidate: [f64; 2]) {
    change(|record| {
        record.candidate = Some(candidate);
        record.stage = Stage::Evaluating;
    });
}
