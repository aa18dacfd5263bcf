//! The oracle's answers of the three calls, kept in files for a program to replay:
//! what the model leaves behind, held against the original where that can answer.
//!
//! A file is one record behind the other, every number big-endian: length of the
//! sheet, phase, length of the list (u32 each); the sheet; status (u32), x, y, z
//! and clearance (f64's bits), count (u32); the list's bits after the call. The
//! list is the chart's output, before the call `UNWRITTEN` in every place, or image
//! pick's images; plane pick has phase 0 and a list of 0.

use std::collections::BTreeMap;
use std::f64::consts::PI;

use crate::big_endian::{take_all, take_part, take_u32, take_u64};
use crate::call::{Call, Given, Judge, Left};
use crate::compare::UNWRITTEN;
use crate::generate::{calls, case, damaged_calls, largest, on_flat_plane, reordered, Case};
use crate::plates::above_largest;
use crate::rng::Rng;
use crate::sheet::{Ring, Sheet, CONE, CYLINDER, SAMPLES, TORUS};

/// A call and what it leaves behind.
#[derive(Clone, Debug, PartialEq)]
pub struct Record {
    pub given: Given,
    pub left: Left,
}

// The files.

/// The name of a call's file.
pub fn file_name(call: Call) -> &'static str {
    match call {
        Call::Chart => "chart",
        Call::ImagePick => "image_pick",
        Call::PlanePick => "plane_pick",
    }
}

pub fn file(records: &[Record]) -> Vec<u8> {
    let mut file = Vec::new();
    for Record { given, left } in records {
        for number in [given.sheet.len(), given.phase as usize, given.list.len()] {
            file.extend((number as u32).to_be_bytes());
        }
        file.extend(&given.sheet);
        file.extend(left.status.to_be_bytes());
        let [numbers @ .., count] = left.numbers;
        file.extend(numbers.iter().flat_map(|bits| bits.to_be_bytes()));
        file.extend((f64::from_bits(count) as u32).to_be_bytes());
        file.extend(left.list.iter().flat_map(|bits| bits.to_be_bytes()));
    }
    file
}

/// The records of a call's file; none where it does not end with a record.
pub fn read(call: Call, file: &[u8]) -> Option<Vec<Record>> {
    take_all(file, |rest| Record::read(call, rest))
}

impl Record {
    fn read(call: Call, rest: &mut &[u8]) -> Option<Record> {
        let length = take_u32(rest)? as usize;
        let phase = take_u32(rest)?;
        let places = take_u32(rest)? as usize;
        let sheet = take_part(rest, length)?.to_vec();
        let status = take_u32(rest)?;
        let mut numbers = [0; 5];
        for bits in &mut numbers[..4] {
            *bits = take_u64(rest)?;
        }
        numbers[4] = f64::from(take_u32(rest)?).to_bits();
        let list: Option<Vec<u64>> = (0..places).map(|_| take_u64(rest)).collect();
        let left = Left {
            status,
            numbers,
            list: list?,
        };
        let before = match call {
            Call::Chart => vec![UNWRITTEN.to_bits(); places],
            _ => left.list.clone(),
        };
        let given = Given {
            call,
            sheet,
            phase,
            list: before,
        };
        Some(Record { given, left })
    }

    /// Which way a face that goes around is turned, told by the moved points of
    /// its lowest ring around: 1 where u grows along it, −1 where it falls. 0 where
    /// no ring goes around, or the chart does not answer.
    pub fn turning(&self) -> i32 {
        let sheet = Sheet::read(&self.given.sheet);
        let Some(sheet) = sheet.filter(|_| self.left.status == 0) else {
            return 0;
        };
        let mut written = self.left.list.iter().map(|bits| f64::from_bits(*bits));
        let (mut lowest, mut turning) = (f64::INFINITY, 0);
        for ring in &sheet.rings {
            let points: Vec<f64> = written.by_ref().take(2 * SAMPLES * ring.0.len()).collect();
            let [first, last] = [points[0], points[points.len() - 2]];
            if (last - first).abs() > PI && points[1] < lowest {
                lowest = points[1];
                turning = if last > first { 1 } else { -1 };
            }
        }
        turning
    }
}

// The choice of records.

/// Seeds that are looked at for records: of the chart, and of a pick, where each
/// brings more calls.
const CHART_SEEDS: u64 = 12_000;
const PICK_SEEDS: u64 = 6_000;
/// Coedges of a sheet, save for the few that are there for their size.
const COEDGES: usize = 6;

/// Records chosen so far, with how many there are of each sort.
struct Choice {
    call: Call,
    records: Vec<Record>,
    sorts: BTreeMap<String, usize>,
}

/// The records of a call's file: a few of each sort that the seeds bring.
pub fn records(call: Call) -> Vec<Record> {
    let mut choice = Choice {
        call,
        records: Vec::new(),
        sorts: BTreeMap::new(),
    };
    match call {
        Call::Chart => (0..CHART_SEEDS).for_each(|seed| choice.look_at_case(seed)),
        _ => (0..PICK_SEEDS).for_each(|seed| choice.look_at_calls(seed)),
    }
    for seed in 0..200 {
        choice.look_at_damaged(seed);
    }
    choice.short_sheets();
    if call != Call::PlanePick {
        choice.phases();
    }
    choice.push_original(on_flat_plane(call, &largest(), 0));
    let over = on_flat_plane(call, &above_largest(), 0);
    choice.push(over, &Judge::Number(6));
    choice.records
}

/// The record of a call. The file is made on a machine where the two agree.
fn record(given: Given, judge: &Judge) -> Record {
    let left = given.judged(judge).expect("model and judge agree");
    Record { given, left }
}

impl Choice {
    fn push(&mut self, given: Given, judge: &Judge) {
        self.records.push(record(given, judge));
    }

    fn push_original(&mut self, given: Given) {
        let judge = given.judge();
        self.push(given, &judge);
    }

    /// Whether fewer than `enough` of the sort were asked for before.
    fn wants(&mut self, sort: String, enough: usize) -> bool {
        let count = self.sorts.entry(sort).or_default();
        *count += 1;
        *count <= enough
    }

    // The chart.

    /// The case of a seed, where its sort is wanted; then sometimes the same rings
    /// in another order, or a list that is too short.
    fn look_at_case(&mut self, seed: u64) {
        let Some(case) = small_case(seed) else {
            return;
        };
        let mut given = Given::chart(&case.sheet, case.phase);
        let room = given.list.len();
        given.set_places(room + if seed.is_multiple_of(2) { 3 } else { 0 });
        let judge = given.judge();
        let record = record(given, &judge);
        if !self.wants_case(&case, &record) {
            return;
        }
        let (status, mut given) = (record.left.status, record.given.clone());
        self.records.push(record);
        let several = case.sheet.rings.len() > 1;
        let orders = format!("reordered, {status}, {}", case.sheet.kind);
        if several && self.wants(orders, if status == 0 { 6 } else { 1 }) {
            given = reordered(&mut Rng::new(seed), &given);
            self.push_original(given.clone());
        }
        if self.wants(format!("short list, else {status}"), 3) {
            given.set_places(room - 1);
            self.push(given, &Judge::Number(9));
        }
    }

    /// By what the sheet is and by where it comes from; each asks for its own.
    fn wants_case(&mut self, case: &Case, record: &Record) -> bool {
        let Sheet { kind, sense, .. } = case.sheet;
        let (status, phase) = (record.left.status, case.phase);
        let (several, turning) = (case.sheet.rings.len() > 1, record.turning());
        let sheet = format!("{status} {kind} {sense} {phase} {several} {turning}");
        let (of_sheet, of_family) = if status == 0 { (6, 5) } else { (1, 3) };
        let by_sheet = self.wants(sheet, of_sheet);
        let by_family = self.wants(format!("{} {status}", case.family), of_family);
        by_sheet || by_family
    }

    // The picks.

    /// The calls of a seed, where their sorts are wanted; the same call in another
    /// order follows it. What 1 to 5 refuse is left to `look_at_damaged`.
    fn look_at_calls(&mut self, seed: u64) {
        let mut chosen = Vec::new();
        for (index, trial) in calls(seed).into_iter().enumerate() {
            let small = trial.given.sheet.len() <= longest();
            let Some(sheet) = Sheet::read(&trial.given.sheet).filter(|_| small) else {
                continue;
            };
            if trial.given.call != self.call || matches!(trial.judge, Judge::Number(..6)) {
                continue;
            }
            let record = record(trial.given, &trial.judge);
            let wanted = match trial.reorders {
                Some(first) => chosen.contains(&first) && self.wants_reordered(&sheet, &record),
                None => self.wants_trial(&trial.what, &sheet, &record),
            };
            if wanted {
                chosen.push(index);
                self.records.push(record);
            }
        }
    }

    fn wants_reordered(&mut self, sheet: &Sheet, record: &Record) -> bool {
        let status = record.left.status;
        let enough = match (status, self.call) {
            (0, Call::PlanePick) => 40,
            (0, _) => 12,
            _ => 3,
        };
        self.wants(format!("reordered, {status}, {}", sheet.kind), enough)
    }

    /// By what the sheet is and by what the call was made for.
    fn wants_trial(&mut self, what: &str, sheet: &Sheet, record: &Record) -> bool {
        let (status, phase) = (record.left.status, record.given.phase);
        let (kind, sense, several) = (sheet.kind, sheet.sense, sheet.rings.len() > 1);
        // A plane pick has one kind and one phase, and an image pick has many.
        let (of_sheet, of_purpose) = match (status, self.call) {
            (0, Call::PlanePick) => (90, 8),
            (0, _) => (10, 10),
            (6..=10, _) => (0, 8),
            _ => (3, 6),
        };
        let sort = format!("{status} {kind} {sense} {phase} {several}");
        let by_sheet = self.wants(sort, of_sheet);
        let by_purpose = self.wants(format!("{what} {status}"), of_purpose);
        by_sheet || by_purpose
    }

    // Every call.

    fn look_at_damaged(&mut self, seed: u64) {
        let Some(case) = small_case(seed) else {
            return;
        };
        for trial in damaged_calls(&mut Rng::new(seed), &case.sheet) {
            let Judge::Number(number) = trial.judge else {
                continue;
            };
            let small = trial.given.sheet.len() <= longest();
            if trial.given.call != self.call || !small {
                continue;
            }
            let sort = format!("{number} {}", trial.what);
            // The second is asked only where the first says yes, so that one way
            // to be refused leaves room for the others.
            if self.wants(sort, 10) && self.wants(format!("refused by {number}"), 16) {
                self.push(trial.given, &trial.judge);
            }
        }
    }

    /// Every length from 0 to 8, cut from a sheet and with a right length field.
    fn short_sheets(&mut self) {
        let sheet = Sheet::flat(vec![Ring::square(1, [0.5, 0.5], 0.5)]);
        let whole = on_flat_plane(self.call, &sheet, 0);
        for length in 0..=8 {
            let mut given = whole.clone();
            given.sheet.truncate(length);
            self.push(given, &Judge::Number(1));
        }
        let sheet = vec![0, 0, 0, 4, 1, 0, 1, 1];
        self.push(Given { sheet, ..whole }, &Judge::Number(5));
    }

    fn phases(&mut self) {
        let ring = Ring::square(1, [0.5, 0.5], 0.5);
        let torus = on_flat_plane(self.call, &Sheet::new(TORUS, 1, vec![ring]), 0);
        for phase in [2, 7, 256, 1 << 31, u32::MAX] {
            let given = torus.clone();
            self.push(Given { phase, ..given }, &Judge::Number(8));
        }
        self.push_original(Given { phase: 1, ..torus });
    }
}

/// The longest sheet of the file, save for the few that are there for their size.
fn longest() -> usize {
    8 + 72 + 16 + 280 * (COEDGES + 1)
}

/// The case of a seed, unless its sheet is too long for the file. Of the rings
/// around on cylinders and cones, half are walked the other way: the families
/// have one turning alone.
fn small_case(seed: u64) -> Option<Case> {
    let mut case = case(seed);
    if matches!(case.sheet.kind, CYLINDER | CONE) && seed % 4 < 2 {
        let rings = std::mem::take(&mut case.sheet.rings);
        case.sheet.rings = rings.into_iter().map(Ring::reversed).collect();
    }
    let coedges = case.sheet.coedges().count();
    (coedges <= COEDGES || case.family == "many rings").then_some(case)
}
