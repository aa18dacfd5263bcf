//! The oracle's answers of the calls after the picker, kept in files for a program to
//! replay: what the model leaves behind, held against the original where that can
//! answer.
//!
//! A file is one record behind the other, every number big-endian, in the form of the
//! sheets' records: size of the front in bytes, whole number, length of the list (u32
//! each); the front (f64's bits); status (u32), x, y, z and clearance (f64's bits) and
//! the count (u32), which is 0; the list (f64's bits).
//!
//! | call | front | whole number | list |
//! |---|---|---|---|
//! | sample_parameter | | n | a, b |
//! | direction | | 0 | points |
//! | spherical_triangle | centre | sense | radius, then sides |
//! | point_on | u axis, then normal | length of the u axis | corners |
//! | cylinder_point | heights | 0 | angles |
//! | placed | transform | 0 | point |

use std::collections::BTreeMap;

use super::plates::plates;
use super::{Call, Given, Left, Trial};
use crate::big_endian::{take_all, take_u32, take_u64};
use crate::generate::after::trial;
use crate::model::MODEL;

/// A call and what it leaves behind.
#[derive(Clone, Debug)]
pub struct Record {
    pub given: Given,
    pub left: Left,
}

// The files.

/// Front, whole number and list of a call.
fn parts(given: &Given) -> (Vec<f64>, u32, Vec<f64>) {
    let lists = &given.lists;
    match given.call {
        Call::SampleParameter => (Vec::new(), given.whole, lists.concat()),
        Call::Direction => (Vec::new(), 0, lists[0].clone()),
        Call::SphericalTriangle => (lists[0].clone(), given.whole, lists[1..].concat()),
        Call::PointOn => (lists[..2].concat(), lists[0].len() as u32, lists[2].clone()),
        Call::CylinderPoint | Call::Placed => (lists[0].clone(), 0, lists[1].clone()),
    }
}

/// The call that has these parts; none where they are too short for it.
fn given(call: Call, mut front: Vec<f64>, whole: u32, mut list: Vec<f64>) -> Option<Given> {
    let lists = match call {
        Call::SampleParameter => match list[..] {
            [a, b] => vec![vec![a], vec![b]],
            _ => return None,
        },
        Call::Direction => vec![list],
        Call::SphericalTriangle if list.is_empty() => return None,
        Call::SphericalTriangle => {
            let sides = list.split_off(1);
            vec![front, list, sides]
        }
        Call::PointOn if front.len() < whole as usize => return None,
        Call::PointOn => {
            let normal = front.split_off(whole as usize);
            vec![front, normal, list]
        }
        Call::CylinderPoint | Call::Placed => vec![front, list],
    };
    let whole = match call {
        Call::SampleParameter | Call::SphericalTriangle => whole,
        _ => 0,
    };
    Some(Given { call, whole, lists })
}

pub fn file(records: &[Record]) -> Vec<u8> {
    let mut file = Vec::new();
    for Record { given, left } in records {
        let (front, whole, list) = parts(given);
        for number in [8 * front.len() as u32, whole, list.len() as u32] {
            file.extend(number.to_be_bytes());
        }
        file.extend(front.iter().flat_map(|x| x.to_bits().to_be_bytes()));
        file.extend(left.status.to_be_bytes());
        let [values @ .., _] = &left.numbers;
        file.extend(values.iter().flat_map(|bits| bits.to_be_bytes()));
        file.extend(0u32.to_be_bytes());
        file.extend(list.iter().flat_map(|x| x.to_bits().to_be_bytes()));
    }
    file
}

/// The records of a call's file; none where it does not end with a record.
pub fn read(call: Call, file: &[u8]) -> Option<Vec<Record>> {
    take_all(file, |rest| Record::read(call, rest))
}

fn take_numbers(rest: &mut &[u8], count: usize) -> Option<Vec<f64>> {
    (0..count)
        .map(|_| take_u64(rest).map(f64::from_bits))
        .collect()
}

impl Record {
    fn read(call: Call, rest: &mut &[u8]) -> Option<Record> {
        let [size, whole, places] = [take_u32(rest)?, take_u32(rest)?, take_u32(rest)?];
        let front = take_numbers(rest, size as usize / 8)?;
        let status = take_u32(rest)?;
        let mut numbers = [0; 5];
        for bits in &mut numbers[..4] {
            *bits = take_u64(rest)?;
        }
        if take_u32(rest)? != 0 {
            return None;
        }
        let list = take_numbers(rest, places as usize)?;
        Some(Record {
            given: given(call, front, whole, list)?,
            left: Left { status, numbers },
        })
    }
}

// The choice of records.

/// Seeds that are looked at for records.
const SEEDS: u64 = 6_000;
/// Numbers of a record, save for the few that are there for their size.
const SMALL: usize = 64;

/// The records of a call's file: its plates, then a few of each family and status.
pub fn records(call: Call) -> Vec<Record> {
    let plates = plates();
    let of_call = plates.iter().filter(|plate| plate.refused.call == call);
    let pairs = of_call.flat_map(|plate| [&plate.refused, &plate.passes]);
    let mut records: Vec<Record> = pairs.map(|given| record(given.clone())).collect();
    let mut sorts: BTreeMap<String, usize> = BTreeMap::new();
    for trial in (0..SEEDS).map(|seed| trial(call, seed)) {
        let left = trial.judged().expect("model and judge agree");
        let small = trial.given.lists.iter().map(Vec::len).sum::<usize>() <= SMALL;
        let sort = format!("{} {} {small}", trial.what, left.status);
        let count = sorts.entry(sort).or_default();
        *count += 1;
        if *count <= enough(&trial, left.status, small) {
            records.push(record(trial.given));
        }
    }
    records
}

fn record(given: Given) -> Record {
    let left = given.left_by(MODEL);
    Record { given, left }
}

/// A triangle has sixty numbers, and more families than the others. The plates have
/// the lists that are too long.
fn enough(trial: &Trial, status: u32, small: bool) -> usize {
    match (trial.given.call, status) {
        _ if !small => usize::from(status == 0),
        (Call::SphericalTriangle, 19) => 3,
        (Call::SphericalTriangle, _) => 5,
        (Call::PointOn, _) => 11,
        (Call::CylinderPoint, _) => 10,
        (Call::SampleParameter, 0) => 40,
        (Call::Direction, 0) => 30,
        (_, 0) => 22,
        _ => 13,
    }
}
