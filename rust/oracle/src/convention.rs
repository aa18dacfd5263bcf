//! The calls over the C convention, from the archive or from a stub, and what
//! they leave behind held against what is expected, place by place.

use crate::call::{Call, Given, Judge, Left};
use crate::compare::UNWRITTEN;
use crate::generate::{calls, Trial};
use crate::tally::Tally;

/// Places behind each list that the call was not lent.
pub(crate) const GUARD: usize = 2;
/// What stands in the bytes behind a sheet.
const GUARD_BYTE: u8 = 0xA5;

/// A list in longer storage: the call is told of its first places alone.
pub struct Guarded<T> {
    storage: Vec<T>,
    length: usize,
}

impl<T: Copy> Guarded<T> {
    pub(crate) fn new(list: Vec<T>, guard: T) -> Guarded<T> {
        let length = list.len();
        let mut storage = list;
        storage.extend([guard; GUARD]);
        Guarded { storage, length }
    }

    /// What the call is lent.
    pub fn lent(&mut self) -> &mut [T] {
        &mut self.storage[..self.length]
    }

    /// What stands behind it.
    pub fn behind(&mut self) -> &mut [T] {
        &mut self.storage[self.length..]
    }
}

impl Guarded<f64> {
    /// Every place, guards included.
    pub(crate) fn bits(&self) -> Vec<u64> {
        self.storage.iter().map(|x| x.to_bits()).collect()
    }
}

/// What a call is lent over the C convention.
pub struct Lent {
    pub call: Call,
    pub sheet: Guarded<u8>,
    pub phase: u32,
    /// The chart's output list or image pick's images.
    pub list: Guarded<f64>,
    /// Takes x, y, z, clearance and count.
    pub result: Guarded<f64>,
}

/// The archive or a stub: it gives the status and writes the lists.
pub type Callee<'a> = &'a (dyn Fn(&mut Lent) -> u32 + Sync);

/// The status and every place of every list, guards included.
#[derive(PartialEq)]
struct Seen {
    status: u32,
    result: Vec<u64>,
    list: Vec<u64>,
    sheet: Vec<u8>,
}

impl Lent {
    /// What is given, with so many places of result.
    pub fn new(given: &Given, places: usize) -> Lent {
        Lent {
            call: given.call,
            sheet: Guarded::new(given.sheet.clone(), GUARD_BYTE),
            phase: given.phase,
            list: Guarded::new(given.numbers(), UNWRITTEN),
            result: Guarded::new(vec![UNWRITTEN; places], UNWRITTEN),
        }
    }

    fn seen(&self, status: u32) -> Seen {
        Seen {
            status,
            result: self.result.bits(),
            list: self.list.bits(),
            sheet: self.sheet.storage.clone(),
        }
    }

    /// After a call with this status and a result list of five: the first thing in
    /// which what is seen differs from what the call must leave behind.
    pub fn difference(&self, status: u32, given: &Given, left: &Left) -> Option<String> {
        let theirs = expected(given, left.status, &left.numbers, &left.list);
        self.seen(status).difference(&theirs)
    }
}

/// What a call with so many places of result leaves behind.
fn seen(callee: Callee, given: &Given, places: usize) -> Seen {
    let mut lent = Lent::new(given, places);
    let status = callee(&mut lent);
    lent.seen(status)
}

/// What should be seen after a call: the sheet is never written.
fn expected(given: &Given, status: u32, result: &[u64], list: &[u64]) -> Seen {
    let guarded = |list: &[u64]| [list, &[UNWRITTEN.to_bits(); GUARD]].concat();
    Seen {
        status,
        result: guarded(result),
        list: guarded(list),
        sheet: [&given.sheet[..], &[GUARD_BYTE; GUARD]].concat(),
    }
}

impl Seen {
    /// The first thing in which this differs from what should be seen.
    fn difference(&self, theirs: &Seen) -> Option<String> {
        if self.status != theirs.status {
            return Some(format!("status {}, not {}", self.status, theirs.status));
        }
        let number = |bits: u64| format!("{:?}", f64::from_bits(bits));
        difference("result", &self.result, &theirs.result, number)
            .or_else(|| difference("list", &self.list, &theirs.list, number))
            .or_else(|| difference("sheet", &self.sheet, &theirs.sheet, |byte| byte.to_string()))
    }
}

pub(crate) fn difference<T: Copy + PartialEq>(
    name: &str,
    ours: &[T],
    theirs: &[T],
    show: impl Fn(T) -> String,
) -> Option<String> {
    let at = ours.iter().zip(theirs).position(|(x, y)| x != y)?;
    let [ours, theirs] = [ours[at], theirs[at]].map(show);
    Some(format!("{name}[{at}] is {ours}, not {theirs}"))
}

/// A trial with what its call must leave behind.
pub struct Judged {
    pub trial: Trial,
    pub left: Left,
}

/// The calls of a seed. Model and judge must agree on each.
pub fn judged_calls(seed: u64) -> Vec<Judged> {
    let judged = |trial: Trial| {
        let left = trial.given.judged(&trial.judge);
        let left = left.unwrap_or_else(|e| panic!("seed {seed}, {}: {e}", trial.what));
        Judged { trial, left }
    };
    calls(seed).into_iter().map(judged).collect()
}

/// Lengths of a result list that are refused, in turn.
fn other_length(turn: usize) -> usize {
    [0, 4, 6, 1, 10][turn % 5]
}

/// The first of a seed's calls that differs from what is expected of it, with a
/// result list of five or with one of another length, or whose numbers change
/// with the order of the rings; and how.
pub fn first_difference(callee: Callee, calls: &[Judged]) -> Option<(usize, String)> {
    let mut answers: Vec<(u32, Vec<u64>)> = Vec::new();
    for (index, Judged { trial, left }) in calls.iter().enumerate() {
        let given = &trial.given;
        let ours = seen(callee, given, 5);
        let theirs = expected(given, left.status, &left.numbers, &left.list);
        let mut found = ours.difference(&theirs);
        answers.push((ours.status, ours.result));
        if trial
            .reorders
            .is_some_and(|first| answers[first] != answers[index])
        {
            found = found.or(Some("another answer than in the first order".into()));
        }
        found = found.or_else(|| {
            let places = other_length(index);
            let unwritten = vec![UNWRITTEN.to_bits(); places];
            let theirs = expected(given, 1, &unwritten, &given.list);
            let found = seen(callee, given, places).difference(&theirs)?;
            Some(format!("result list of {places}: {found}"))
        });
        if let Some(found) = found {
            return Some((index, found));
        }
    }
    None
}

/// Holds every call of a seed against model and judge, and counts what came up.
pub fn compare_seed(callee: Callee, seed: u64, tally: &mut Tally) {
    let calls = judged_calls(seed);
    if let Some((index, found)) = first_difference(callee, &calls) {
        let Trial { what, given, .. } = &calls[index].trial;
        panic!("seed {seed}, {}, {what}: {found}\n{given:?}", given.call);
    }
    calls.iter().for_each(|judged| count(judged, tally));
}

pub fn answered_as(call: Call, kind: u8, sense: u8, phase: u32) -> String {
    format!("{call} answers kind {kind}, sense {sense}, phase {phase}")
}

fn count(Judged { trial, left }: &Judged, tally: &mut Tally) {
    let Trial { what, given, .. } = trial;
    let (call, status) = (given.call, left.status);
    tally.add("calls".into());
    tally.add(format!("{call}: calls"));
    tally.add(format!("{call}: status {status}"));
    tally.add(format!("{call}, {what}: status {status}"));
    if matches!(trial.judge, Judge::Original(_)) {
        tally.add("judged by the original".into());
        tally.add(format!("{call}: judged by the original"));
    }
    if trial.reorders.is_some() {
        tally.add(format!("{call}, reordered: status {status}"));
    }
    if status == 0 {
        let (kind, sense) = (given.sheet[5], given.sheet[6]);
        tally.add(answered_as(call, kind, sense, given.phase));
        if left.numbers[..3].contains(&(-0.0f64).to_bits()) {
            tally.add(format!("{call} answers a -0"));
        }
    }
}
