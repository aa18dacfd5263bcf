//! Calls made from the case of a seed: the case itself to all three calls, lists
//! of every length, rings in another order, images at check 10's and check 15's
//! limits, and now and then every way to be refused by 1 to 10.

use std::rc::Rc;

use super::damage::damaged;
use super::images::{images_at_limit, images_on, near_images, wrong_images};
use super::thresholds::beside;
use super::{case, plane, surface_of, Case};
use crate::call::{Call, Given, Judge};
use crate::original::{Run, RECORDED};
use crate::recorder::Stage;
use crate::rng::Rng;
use crate::sheet::{Ring, Sheet, PLANE, SAMPLES};
use crate::surface::Surface;

/// A damaged sheet is refused soon, but there are many ways to damage one.
const SEEDS_FOR_ONE_DAMAGED: u64 = 40;

/// A call, what it was made for, and who judges it.
#[derive(Clone, Debug)]
pub struct Trial {
    pub what: String,
    pub given: Given,
    pub judge: Judge,
    /// The trial before it whose rings this one has in another order.
    pub reorders: Option<usize>,
}

/// The calls of a seed. The first is the chart of the case itself.
pub fn calls(seed: u64) -> Vec<Trial> {
    let mut calls = Calls::new(seed);
    calls.the_case();
    if calls.rng.once_in(3) {
        calls.as_a_plane();
    }
    if calls.rng.once_in(6) {
        calls.short_list();
    }
    if calls.rng.once_in(3) {
        calls.wrong_images();
    }
    if calls.rng.once_in(5) {
        calls.other_images();
    }
    if calls.rng.once_in(4) {
        calls.near_images();
    }
    if calls.rng.once_in(16) {
        calls.plane_at_its_limit();
    }
    if calls.rng.once_in(8) {
        calls.refused_in_any_order();
    }
    if seed.is_multiple_of(SEEDS_FOR_ONE_DAMAGED) {
        let damaged = damaged_calls(&mut calls.rng, &calls.case.sheet);
        calls.trials.extend(damaged);
    }
    calls.trials
}

struct Calls {
    rng: Rng,
    case: Case,
    /// The original on the case.
    run: Rc<Run>,
    /// The images of the case on its surface.
    images: Vec<f64>,
    trials: Vec<Trial>,
}

impl Calls {
    fn new(seed: u64) -> Calls {
        let mut case = case(seed);
        // Where evaluation fails the host has no images, and makes no pick.
        if let Surface::Clipped { factor, .. } = case.surface {
            case.surface = Surface::Graph { factor };
        }
        let run = RECORDED.pick(&case.sheet, case.phase, case.surface);
        Calls {
            rng: Rng::new(!seed),
            images: images_on(case.surface, &case.sheet, &run),
            run: Rc::new(run),
            case,
            trials: Vec::new(),
        }
    }

    fn push(&mut self, what: impl Into<String>, given: Given, judge: Judge) {
        self.trials.push(Trial {
            what: what.into(),
            given,
            judge,
            reorders: None,
        });
    }

    /// The trial at `index` once more, its rings in another order, if it has several.
    fn reorder(&mut self, index: usize) {
        let first = &self.trials[index];
        let Some(sheet) = Sheet::read(&first.given.sheet).filter(|s| s.rings.len() > 1) else {
            return;
        };
        let order = other_order(&mut self.rng, &sheet);
        let given = first.given.reordered(&order).expect("the layout reads");
        let judge = match first.judge {
            Judge::Number(number) => Judge::Number(number),
            Judge::Original(_) => given.judge(),
        };
        self.trials.push(Trial {
            what: format!("{}, reordered", first.what),
            given,
            judge,
            reorders: Some(index),
        });
    }

    fn reorder_now_and_then(&mut self, index: usize) {
        if self.rng.once_in(2) {
            self.reorder(index);
        }
    }

    /// The case to the chart, with a list of just the right length or with a tail,
    /// to image pick and to plane pick. One run of the original judges all three.
    fn the_case(&mut self) {
        let Case { family, phase, .. } = self.case;
        let mut chart = Given::chart(&self.case.sheet, phase);
        chart.set_places(chart.list.len() + self.rng.pick(&[0, 3, 3]));
        let image_pick = Given::image_pick(&self.case.sheet, phase, &self.images);
        let judge = Judge::Original(self.run.clone());
        self.push(family, chart, judge.clone());
        self.push(family, image_pick, judge.clone());
        let plane_pick = Given::plane_pick(&self.case.sheet);
        if self.case.sheet.kind == PLANE {
            self.push(family, plane_pick, judge);
        } else if self.rng.once_in(8) {
            self.push("off a plane", plane_pick, Judge::Number(8));
        }
        if self.rng.once_in(2) {
            (0..self.trials.len()).for_each(|index| self.reorder(index));
        }
    }

    /// The case's rings on a plane, whatever their kind.
    fn as_a_plane(&mut self) {
        let mut sheet = self.case.sheet.clone();
        sheet.kind = PLANE;
        sheet.plane = plane(&mut self.rng);
        let given = Given::plane_pick(&sheet);
        let judge = given.judge();
        self.push(format!("{}, as a plane", self.case.family), given, judge);
        self.reorder_now_and_then(self.trials.len() - 1);
    }

    /// A list that is too short is refused before the chart is looked at.
    fn short_list(&mut self) {
        let mut given = Given::chart(&self.case.sheet, self.case.phase);
        let room = given.list.len();
        given.set_places(self.rng.pick(&[0, room / 2, room - 1, room - 1]));
        self.push("short list", given, Judge::Number(9));
    }

    /// Refused by 10, whatever the sheet's chart would be refused by.
    fn wrong_images(&mut self) {
        let images = wrong_images(&mut self.rng, &self.images);
        let what = match self.run.record.stage {
            Stage::Check(check) if check < 15 => format!("wrong images before {check}"),
            _ => "wrong images".into(),
        };
        let given = Given::image_pick(&self.case.sheet, self.case.phase, &images);
        self.push(what, given, Judge::Number(10));
        self.reorder_now_and_then(self.trials.len() - 1);
    }

    /// Images of a surface of any kind, or with numbers at their limits.
    fn other_images(&mut self) {
        let sheet = &self.case.sheet;
        let (what, images) = if self.rng.once_in(2) {
            let kind = self.rng.below(7) as u8;
            let surface = surface_of(&mut self.rng, kind, sheet.plane);
            ("another surface", images_on(surface, sheet, &self.run))
        } else {
            let images = images_at_limit(&mut self.rng, &self.images);
            ("images at their limit", images)
        };
        let given = Given::image_pick(sheet, self.case.phase, &images);
        let judge = given.judge();
        self.push(what, given, judge);
        self.reorder_now_and_then(self.trials.len() - 1);
    }

    /// Check 15 on a sheet that the chart answers: one segment's image is as far
    /// from the last image as the limit asks, or beside it.
    fn near_images(&mut self) {
        if self.run.calls.is_empty() {
            return;
        }
        let mut sheet = self.case.sheet.clone();
        let limit = deviate(&mut self.rng, &mut sheet);
        let distance = beside(&mut self.rng, limit);
        let images = near_images(&mut self.rng, &sheet, distance);
        let given = Given::image_pick(&sheet, self.case.phase, &images);
        let judge = given.judge();
        self.push("near images", given, judge);
        self.reorder_now_and_then(self.trials.len() - 1);
    }

    /// Check 15 on the flat plane: the middle of a square, walked once or three
    /// times, is as far from its sides as the limit asks, or beside it.
    fn plane_at_its_limit(&mut self) {
        let reach = self.rng.pick(&[1e-7, 2.0f64.powi(-7), 2.0f64.powi(-9)]);
        let side = 2.0 * beside(&mut self.rng, reach);
        let square = Ring::rectangle([0.0, 0.0], [side, side]);
        let rings = self.rng.pick(&[1, 3, 3]);
        let mut sheet = Sheet::flat(vec![square; rings]);
        if reach > 1e-7 {
            sheet.rings[rings - 1].0[3].deviation = reach / 8.0;
        }
        let given = Given::plane_pick(&sheet);
        let judge = given.judge();
        self.push("plane at its limit", given, judge);
        self.reorder(self.trials.len() - 1);
    }

    /// Sheets that read and are refused by 6 or 7, and phases that are none: in
    /// any order of the rings the same.
    fn refused_in_any_order(&mut self) {
        let mut sheet = self.case.sheet.clone();
        let number = self.rng.pick(&[6, 7, 8]);
        match number {
            6 => count_wrongly(&mut self.rng, &mut sheet),
            7 => put_far(&mut self.rng, &mut sheet),
            _ => {}
        }
        let phase = self.rng.pick(&[2, u32::MAX]);
        let images = vec![0.5; 3 * (sheet.point_count() + 1)];
        let calls = [
            Given::chart(&sheet, phase),
            Given::image_pick(&sheet, phase, &images),
            Given::plane_pick(&sheet),
        ];
        for given in calls {
            if number < 8 || given.call != Call::PlanePick {
                self.push(format!("refused by {number}"), given, Judge::Number(number));
                self.reorder(self.trials.len() - 1);
            }
        }
    }
}

/// Refused by 6: a ring without coedges, or 129 coedges. A NaN may stand in
/// another ring.
fn count_wrongly(rng: &mut Rng, sheet: &mut Sheet) {
    let more = 129 - sheet.coedges().count();
    sheet.rings[0].0[0].deviation = rng.pick(&[0.0, f64::NAN]);
    if sheet.rings.len() == 16 || rng.once_in(4) {
        let coedge = sheet.rings[0].0[0].clone();
        sheet.rings[0].0.extend(vec![coedge; more]);
    } else {
        sheet.rings.push(Ring::default());
    }
}

/// Refused by 7: one number of one ring.
fn put_far(rng: &mut Rng, sheet: &mut Sheet) {
    let ring = rng.below(sheet.rings.len());
    let point = &mut sheet.rings[ring].0[0].points[SAMPLES - 1];
    point[rng.below(2)] = rng.pick(&[f64::NAN, f64::INFINITY, 1_048_576.0f64.next_up()]);
}

/// Gives the sheet deviations of which the greatest is in its last ring. Check
/// 15's limit for them: larger-of(8 × greatest deviation, 1e-7).
fn deviate(rng: &mut Rng, sheet: &mut Sheet) -> f64 {
    let small = 1e-7f64 / 8.0;
    let any = rng.between(0.0, 0.002);
    let greatest = rng.pick(&[0.0, small, small.next_up(), 2.0f64.powi(-10), any, any]);
    sheet.set_deviation(greatest * rng.pick(&[0.0, 0.5]));
    let last = sheet.rings.last_mut().and_then(|ring| ring.0.last_mut());
    last.expect("a coedge").deviation = greatest;
    (8.0 * greatest).max(1e-7)
}

/// Another order of the sheet's rings: ring k is the one that stands at `order[k]`.
fn other_order(rng: &mut Rng, sheet: &Sheet) -> Vec<usize> {
    let mut order: Vec<usize> = (0..sheet.rings.len()).collect();
    rng.shuffle(&mut order);
    let unchanged = |(k, at): (usize, &usize)| sheet.rings[k] == sheet.rings[*at];
    if order.iter().enumerate().all(unchanged) {
        order.rotate_left(1);
    }
    order
}

/// The call with its rings in another order; the layout must read.
pub fn reordered(rng: &mut Rng, given: &Given) -> Given {
    let sheet = Sheet::read(&given.sheet).expect("a layout that reads");
    let order = other_order(rng, &sheet);
    given.reordered(&order).expect("a layout that reads")
}

/// Every damaged copy of every call.
pub fn damaged_calls(rng: &mut Rng, sheet: &Sheet) -> Vec<Trial> {
    let damaged = damaged(rng, sheet).into_iter();
    damaged
        .map(|damaged| Trial {
            what: damaged.what.into(),
            judge: Judge::Number(damaged.number),
            given: damaged.given(),
            reorders: None,
        })
        .collect()
}
