//! The calls over the C convention, from the archive or from a stub, and what they
//! leave behind held against what is expected, place by place.

use super::{Call, Given, Left, Trial};
use crate::compare::UNWRITTEN;
use crate::convention::{difference, Guarded, GUARD};
use crate::generate::after::trial;
use crate::tally::Tally;

/// What a call is lent over the C convention.
pub struct Lent {
    pub call: Call,
    pub whole: u32,
    /// As in `Given`.
    pub lists: Vec<Guarded<f64>>,
    /// Takes the five numbers.
    pub result: Guarded<f64>,
}

/// The archive or a stub: it gives the status and writes the result.
pub type Callee<'a> = &'a (dyn Fn(&mut Lent) -> u32 + Sync);

impl Lent {
    /// What is given, with so many places of result.
    pub fn new(given: &Given, places: usize) -> Lent {
        let guarded = |list: &Vec<f64>| Guarded::new(list.clone(), UNWRITTEN);
        Lent {
            call: given.call,
            whole: given.whole,
            lists: given.lists.iter().map(guarded).collect(),
            result: Guarded::new(vec![UNWRITTEN; places], UNWRITTEN),
        }
    }

    pub fn given(&mut self) -> Given {
        Given {
            call: self.call,
            whole: self.whole,
            lists: self
                .lists
                .iter_mut()
                .map(|list| list.lent().to_vec())
                .collect(),
        }
    }
}

/// The first thing that a call with so many places of result should not have left
/// behind: the lists are never written, nor what stands behind any of them.
fn left_wrong(callee: Callee, given: &Given, places: usize, left: Left) -> Option<String> {
    let mut lent = Lent::new(given, places);
    let status = callee(&mut lent);
    if status != left.status {
        return Some(format!("status {status}, not {}", left.status));
    }
    let show = |bits: u64| format!("{:?}", f64::from_bits(bits));
    let result = match places {
        5 => guarded_bits(&left.numbers.map(f64::from_bits)),
        _ => guarded_bits(&vec![UNWRITTEN; places]),
    };
    let mut lists = lent.lists.iter().zip(&given.lists);
    difference("result", &lent.result.bits(), &result, show).or_else(|| {
        lists.find_map(|(ours, theirs)| {
            difference("list", &ours.bits(), &guarded_bits(theirs), show)
        })
    })
}

/// A list and what stands behind it.
fn guarded_bits(list: &[f64]) -> Vec<u64> {
    let behind = [UNWRITTEN; GUARD];
    list.iter().chain(&behind).map(|x| x.to_bits()).collect()
}

/// In what the call of a trial differs from what is expected of it, with a result
/// list of five and with those of another length.
pub fn found(callee: Callee, given: &Given, left: Left) -> Option<String> {
    left_wrong(callee, given, 5, left).or_else(|| {
        [0, 4, 6].into_iter().find_map(|places| {
            let refused = Left::refused(1);
            let found = left_wrong(callee, given, places, refused)?;
            Some(format!("result list of {places}: {found}"))
        })
    })
}

/// Holds the trials of a seed, one of each call, against model and judge, and counts
/// what came up.
pub fn compare_seed(callee: Callee, seed: u64, tally: &mut Tally) {
    for call in Call::ALL {
        let trial = trial(call, seed);
        let Trial { what, given, .. } = &trial;
        let left = trial.judged();
        let left = left.unwrap_or_else(|e| panic!("seed {seed}, {call}, {what}: {e}\n{given:?}"));
        if let Some(found) = found(callee, given, left) {
            panic!("seed {seed}, {call}, {what}: {found}\n{given:?}");
        }
        count(&trial, left, tally);
    }
}

pub fn count(trial: &Trial, left: Left, tally: &mut Tally) {
    let (call, status, what) = (trial.given.call, left.status, trial.what);
    tally.add(format!("{call}: calls"));
    tally.add(format!("{call}: status {status}"));
    tally.add(format!("{call}, {what}: status {status}"));
    if trial.known.is_none() {
        tally.add(format!("{call}: judged by the original"));
    }
    if left.numbers.contains(&(-0.0f64).to_bits()) {
        tally.add(format!("{call} answers a -0"));
    }
    if call == Call::Direction && status == 0 {
        let [reverse, keep, ..] = left.numbers.map(f64::from_bits);
        tally.add(format!("{call}: reverse {reverse}, keep {keep}"));
    }
}
