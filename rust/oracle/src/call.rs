//! One call as a caller sees it: what it is given, what it leaves behind, and who
//! says that this is right.

use std::fmt;
use std::rc::Rc;

use crate::compare::{compare_chart, compare_pick, UNWRITTEN};
use crate::model::{Answer, Model, MODEL};
use crate::original::{Run, RECORDED};
use crate::sheet::{Plane, Sheet, SAMPLES};
use crate::surface::Surface;

/// The exported calls.
#[derive(Clone, Copy, Debug, PartialEq, Eq)]
pub enum Call {
    Chart,
    ImagePick,
    PlanePick,
}

impl Call {
    pub const ALL: [Call; 3] = [Call::Chart, Call::ImagePick, Call::PlanePick];

    /// The numbers by which it can refuse.
    pub fn refusals(self) -> &'static [u32] {
        match self {
            Call::Chart => &[1, 2, 3, 4, 5, 6, 7, 8, 9, 11, 12, 13, 14],
            Call::ImagePick => &[1, 2, 3, 4, 5, 6, 7, 8, 10, 11, 12, 13, 14, 15],
            Call::PlanePick => &[1, 2, 3, 4, 5, 6, 7, 8, 12, 13, 14, 15],
        }
    }
}

impl fmt::Display for Call {
    fn fmt(&self, f: &mut fmt::Formatter) -> fmt::Result {
        f.write_str(match self {
            Call::Chart => "chart",
            Call::ImagePick => "image pick",
            Call::PlanePick => "plane pick",
        })
    }
}

/// What a call is given.
#[derive(Clone, Debug, PartialEq)]
pub struct Given {
    pub call: Call,
    pub sheet: Vec<u8>,
    /// 0 in plane pick, which takes none.
    pub phase: u32,
    /// The chart's output list, `UNWRITTEN` in every place; image pick's images;
    /// nothing in plane pick. Bits, so that a NaN is equal to itself.
    pub list: Vec<u64>,
}

/// What a call leaves behind, as bits.
#[derive(Clone, Debug, PartialEq)]
pub struct Left {
    pub status: u32,
    /// x, y, z, clearance and count; five times +0 with a refusal.
    pub numbers: [u64; 5],
    /// The list after the call.
    pub list: Vec<u64>,
}

/// Who knows what a call must say.
#[derive(Clone, Debug)]
pub enum Judge {
    /// A check that the original lacks (1 to 10) refuses by this number.
    Number(u32),
    /// A run of the original on the call's sheet and images.
    Original(Rc<Run>),
}

impl Judge {
    /// The judge of a call with this status: the original has neither checks 1
    /// to 8 nor the lists of checks 9 and 10.
    pub fn of(given: &Given, status: u32) -> Judge {
        match status {
            1..=10 => Judge::Number(status),
            _ => given.judge(),
        }
    }
}

pub(crate) fn bits(list: &[f64]) -> Vec<u64> {
    list.iter().map(|x| x.to_bits()).collect()
}

impl Given {
    /// A chart with a list of the length that the sheet's points take.
    pub fn chart(sheet: &Sheet, phase: u32) -> Given {
        Given {
            call: Call::Chart,
            sheet: sheet.bytes(),
            phase,
            list: vec![UNWRITTEN.to_bits(); 2 * sheet.point_count()],
        }
    }

    pub fn image_pick(sheet: &Sheet, phase: u32, images: &[f64]) -> Given {
        Given {
            call: Call::ImagePick,
            sheet: sheet.bytes(),
            phase,
            list: bits(images),
        }
    }

    pub fn plane_pick(sheet: &Sheet) -> Given {
        Given {
            call: Call::PlanePick,
            sheet: sheet.bytes(),
            phase: 0,
            list: Vec::new(),
        }
    }

    /// The chart's list with so many places.
    pub fn set_places(&mut self, places: usize) {
        self.list = vec![UNWRITTEN.to_bits(); places];
    }

    /// Document 01's "reordered": ring k is the one that stood at `order[k]`. Each
    /// ring's images go with it, the last image stays, and a list of wrong length
    /// stays as it is. None where the layout does not read.
    pub fn reordered(&self, order: &[usize]) -> Option<Given> {
        let mut sheet = Sheet::read(&self.sheet)?;
        let mut list = self.list.clone();
        if self.call == Call::ImagePick && list.len() == 3 * (sheet.point_count() + 1) {
            let mut rest = &self.list[..];
            let images: Vec<&[u64]> = sheet
                .rings
                .iter()
                .map(|ring| {
                    rest.split_off(..3 * SAMPLES * ring.0.len())
                        .expect("in the list")
                })
                .collect();
            let moved: Vec<&[u64]> = order.iter().map(|k| images[*k]).collect();
            list = [&moved.concat(), rest].concat();
        }
        sheet.rings = order.iter().map(|k| sheet.rings[*k].clone()).collect();
        Some(Given {
            sheet: sheet.bytes(),
            list,
            ..self.clone()
        })
    }

    /// The original's run on what is given; the layout must read. The chart asks
    /// for no surface: the flat plane can be evaluated everywhere, and what is
    /// evaluated on it are the chart's answer and its points.
    pub fn judge(&self) -> Judge {
        let sheet = Sheet::read(&self.sheet).expect("a layout that reads");
        let on = |plane| RECORDED.pick(&sheet, self.phase, Surface::Plane(plane));
        Judge::Original(Rc::new(match self.call {
            Call::Chart => on(Plane::FLAT),
            Call::ImagePick => RECORDED.pick_with_images(&sheet, self.phase, &self.numbers()),
            Call::PlanePick => on(sheet.plane),
        }))
    }

    /// The list's numbers.
    pub fn numbers(&self) -> Vec<f64> {
        self.list.iter().map(|bits| f64::from_bits(*bits)).collect()
    }

    fn answered_by(&self, model: Model) -> (Answer, Vec<f64>) {
        let mut list = self.numbers();
        let answer = match self.call {
            Call::Chart => model.chart(&self.sheet, self.phase, &mut list),
            Call::ImagePick => model.image_pick(&self.sheet, self.phase, &list),
            Call::PlanePick => model.plane_pick(&self.sheet),
        };
        (answer, list)
    }

    /// What the model leaves behind.
    pub fn left_by(&self, model: Model) -> Left {
        let (answer, list) = self.answered_by(model);
        Left::of(&answer, &list)
    }

    /// What the model leaves behind, held against the judge.
    pub fn judged(&self, judge: &Judge) -> Result<Left, String> {
        let (answer, list) = self.answered_by(MODEL);
        let left = Left::of(&answer, &list);
        match judge {
            Judge::Number(number) => {
                if left.status != *number || left.list != self.list {
                    return Err(format!("refused by {}, known to be {number}", left.status));
                }
            }
            Judge::Original(run) => self.compare(&answer, &list, run)?,
        }
        Ok(left)
    }

    fn compare(&self, answer: &Answer, list: &[f64], run: &Run) -> Result<(), String> {
        if self.call != Call::Chart {
            return compare_pick(&self.call.to_string(), answer, run);
        }
        let sheet = Sheet::read(&self.sheet).ok_or("the sheet's layout does not read")?;
        compare_chart(answer, list, 2 * sheet.point_count(), run)
    }
}

impl Left {
    fn of(answer: &Answer, list: &[f64]) -> Left {
        let (status, numbers) = answer.numbers();
        Left {
            status,
            numbers,
            list: bits(list),
        }
    }
}
