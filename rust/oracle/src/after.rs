//! One of the six calls after the picker as a caller sees it: what it is given, what
//! it leaves behind, and who says that this is right.

pub mod convention;
pub mod plates;
pub mod replay;
mod side;

pub use side::{Side, Triangle, SIDE_LENGTH};

use std::fmt;

use crate::model::{Found, Model, MODEL};
use crate::original::{Copy, RECORDED};
use crate::recorder::Stage;

/// The calls of document 01's "After the picker".
#[derive(Clone, Copy, Debug, PartialEq, Eq)]
pub enum Call {
    SampleParameter,
    Direction,
    SphericalTriangle,
    PointOn,
    CylinderPoint,
    Placed,
}

impl Call {
    pub const ALL: [Call; 6] = [
        Call::SampleParameter,
        Call::Direction,
        Call::SphericalTriangle,
        Call::PointOn,
        Call::CylinderPoint,
        Call::Placed,
    ];

    /// The numbers by which it can refuse.
    pub fn refusals(self) -> &'static [u32] {
        match self {
            Call::SampleParameter | Call::Direction => &[16],
            Call::SphericalTriangle => &[16, 17, 18, 19],
            Call::PointOn => &[16, 20, 21],
            Call::CylinderPoint => &[16, 22, 23],
            Call::Placed => &[16, 24],
        }
    }
}

impl fmt::Display for Call {
    fn fmt(&self, f: &mut fmt::Formatter) -> fmt::Result {
        f.write_str(match self {
            Call::SampleParameter => "sample_parameter",
            Call::Direction => "direction",
            Call::SphericalTriangle => "spherical_triangle",
            Call::PointOn => "point_on",
            Call::CylinderPoint => "cylinder_point",
            Call::Placed => "placed",
        })
    }
}

/// What a call is given.
#[derive(Clone, Debug)]
pub struct Given {
    pub call: Call,
    /// n, or the triangle's sense; 0 in the calls that take none.
    pub whole: u32,
    /// The numbers in the order of the arguments, a lone one as a list of one:
    /// a, b; points; centre, radius, sides; u axis, normal, corners; heights,
    /// angles; transform, point.
    pub lists: Vec<Vec<f64>>,
}

/// What a call leaves behind, as bits; five times +0 with a refusal.
#[derive(Clone, Copy, Debug, PartialEq)]
pub struct Left {
    pub status: u32,
    pub numbers: [u64; 5],
}

impl Left {
    /// An answer in the list of five: the rest is 0.
    fn answered(values: &[f64]) -> Left {
        let mut numbers = [0; 5];
        for (number, value) in numbers.iter_mut().zip(values) {
            *number = value.to_bits();
        }
        Left { status: 0, numbers }
    }

    fn refused(status: u32) -> Left {
        Left {
            status,
            numbers: [0; 5],
        }
    }

    fn of(found: Option<&[f64]>, number: u32) -> Left {
        found.map_or(Left::refused(number), Left::answered)
    }
}

/// Three coordinates of a list.
fn triple(list: &[f64]) -> [f64; 3] {
    [list[0], list[1], list[2]]
}

fn triples(list: &[f64]) -> Vec<[f64; 3]> {
    list.chunks_exact(3).map(triple).collect()
}

impl Given {
    pub fn sample_parameter(a: f64, b: f64, n: u32) -> Given {
        Given::new(Call::SampleParameter, n, &[&[a], &[b]])
    }

    pub fn direction(points: &[f64]) -> Given {
        Given::new(Call::Direction, 0, &[points])
    }

    pub fn spherical_triangle(centre: &[f64], radius: f64, sense: u32, sides: &[f64]) -> Given {
        Given::new(Call::SphericalTriangle, sense, &[centre, &[radius], sides])
    }

    pub fn point_on(u_axis: &[f64], normal: &[f64], corners: &[f64]) -> Given {
        Given::new(Call::PointOn, 0, &[u_axis, normal, corners])
    }

    pub fn cylinder_point(heights: &[f64], angles: &[f64]) -> Given {
        Given::new(Call::CylinderPoint, 0, &[heights, angles])
    }

    pub fn placed(transform: &[f64], point: &[f64]) -> Given {
        Given::new(Call::Placed, 0, &[transform, point])
    }

    fn new(call: Call, whole: u32, lists: &[&[f64]]) -> Given {
        let lists = lists.iter().map(|list| list.to_vec()).collect();
        Given { call, whole, lists }
    }

    /// What the model leaves behind.
    pub fn left_by(&self, model: Model) -> Left {
        let (status, numbers) = self.found_by(model).numbers();
        Left { status, numbers }
    }

    fn found_by(&self, model: Model) -> Found {
        let lists = &self.lists;
        match self.call {
            Call::SampleParameter => model.sample_parameter(lists[0][0], lists[1][0], self.whole),
            Call::Direction => model.direction(&lists[0]),
            Call::SphericalTriangle => {
                model.spherical_triangle(&lists[0], lists[1][0], self.whole, &lists[2])
            }
            Call::PointOn => model.point_on(&lists[0], &lists[1], &lists[2]),
            Call::CylinderPoint => model.cylinder_point(&lists[0], &lists[1]),
            Call::Placed => model.placed(&lists[0], &lists[1]),
        }
    }

    /// What the original says of numbers that pass the checks that it lacks: 16, and
    /// the limits of 20 and 22. Where it says none, how far it came is the number.
    pub fn left_by_original(&self, copy: Copy) -> Left {
        let lists = &self.lists;
        match self.call {
            Call::SampleParameter => {
                let ends = [lists[0][0], lists[1][0]];
                Left::answered(&[copy.sample_parameter(ends, self.whole as usize)])
            }
            Call::Direction => {
                let points = triples(&lists[0]);
                let [first, last, start, end] = [points[0], points[1], points[2], points[3]];
                let (reverse, keep) = copy.direction([first, last], [start, end]);
                Left::answered(&[reverse, keep].map(f64::from))
            }
            Call::SphericalTriangle => {
                let sides: Vec<Side> = lists[2].chunks_exact(SIDE_LENGTH).map(Side::read).collect();
                let centre = triple(&lists[0]);
                let (point, stage) = copy.triangle(centre, lists[1][0], self.whole, &sides);
                Left::of(point.as_ref().map(|p| &p[..]), number(stage, 17))
            }
            Call::PointOn => {
                let corners = triples(&lists[2]);
                let point = copy.point_on(triple(&lists[0]), triple(&lists[1]), &corners);
                let number = if corners.len() < 3 { 20 } else { 21 };
                Left::of(point.as_ref().map(|p| &p[..]), number)
            }
            Call::CylinderPoint => {
                let (middle, stage) = copy.middle(&lists[0], &lists[1]);
                Left::of(middle.as_ref().map(|p| &p[..]), number(stage, 22))
            }
            Call::Placed => {
                let point = copy.placed(&lists[0], triple(&lists[1]));
                Left::of(point.as_ref().map(|p| &p[..]), 24)
            }
        }
    }
}

/// The check that the original came to; `first` before any that is recorded.
fn number(stage: Stage, first: u32) -> u32 {
    match stage {
        Stage::Check(number) => number,
        _ => first,
    }
}

/// A call, what it was made for, and who judges it.
#[derive(Clone, Debug)]
pub struct Trial {
    pub what: &'static str,
    pub given: Given,
    /// The number of a check that the original lacks, by which it is refused; else
    /// the original judges.
    pub known: Option<u32>,
}

impl Trial {
    pub fn judge(&self) -> Left {
        match self.known {
            Some(number) => Left::refused(number),
            None => self.given.left_by_original(RECORDED),
        }
    }

    /// What the model leaves behind, held against the judge.
    pub fn judged(&self) -> Result<Left, String> {
        let (ours, theirs) = (self.given.left_by(MODEL), self.judge());
        if ours != theirs {
            return Err(format!("the model says {ours:?}, the judge {theirs:?}"));
        }
        Ok(ours)
    }
}
