//! The exported calls on one sheet, with the lists that they are lent again and
//! again, and what they must leave behind.

use facepoint_calls::RESULT_LENGTH;

use super::sheets::Subject;
use crate::call::{Given, Left};
use crate::convention::{Callee, Lent};
use crate::surface::Surface;

/// One call that is made again and again with the same lists.
struct Repeated {
    given: Given,
    left: Left,
    lent: Lent,
    status: u32,
}

impl Repeated {
    /// Model and recorded original must agree on an answer.
    fn new(given: Given) -> Result<Repeated, String> {
        let left = given.judged(&given.judge())?;
        if left.status != 0 {
            return Err(format!("{} refuses by {}", given.call, left.status));
        }
        Ok(Repeated {
            lent: Lent::new(&given, RESULT_LENGTH),
            status: u32::MAX,
            given,
            left,
        })
    }

    fn make(&mut self, callee: Callee) {
        self.status = callee(&mut self.lent);
    }

    fn agrees(&self) -> Result<(), String> {
        let found = self.lent.difference(self.status, &self.given, &self.left);
        found.map_or(Ok(()), |found| Err(format!("{}: {found}", self.given.call)))
    }
}

/// Plane pick, or chart, evaluation and image pick.
pub struct Exported<'a> {
    callee: Callee<'a>,
    surface: Surface,
    /// A plane's points are evaluated in its pick; a plane asks for no chart.
    chart: Option<Repeated>,
    pick: Repeated,
}

impl<'a> Exported<'a> {
    pub fn new(subject: &Subject, callee: Callee<'a>) -> Result<Exported<'a>, String> {
        let Subject { sheet, surface, .. } = subject;
        let (chart, pick) = if subject.is_plane() {
            (None, Given::plane_pick(sheet))
        } else {
            let chart = Repeated::new(Given::chart(sheet, 0))?;
            let [points, answer] = [&chart.left.list[..], &chart.left.numbers]
                .map(|bits| bits.iter().copied().map(f64::from_bits).collect::<Vec<_>>());
            let mut images = vec![0.0; 3 * (sheet.point_count() + 1)];
            evaluate(surface, &points, &answer, &mut images);
            (Some(chart), Given::image_pick(sheet, 0, &images))
        };
        Ok(Exported {
            callee,
            surface: *surface,
            chart,
            pick: Repeated::new(pick)?,
        })
    }

    /// All that the answer takes.
    pub fn call(&mut self) {
        self.chart();
        self.evaluate();
        self.pick();
    }

    pub fn chart(&mut self) {
        if let Some(chart) = &mut self.chart {
            chart.make(self.callee);
        }
    }

    /// The host's share, on what the chart left in its lists.
    pub fn evaluate(&mut self) {
        if let Some(Repeated { lent, .. }) = &mut self.chart {
            let images = self.pick.lent.list.lent();
            evaluate(&self.surface, lent.list.lent(), lent.result.lent(), images);
        }
    }

    pub fn pick(&mut self) {
        self.pick.make(self.callee);
    }

    /// The first thing in which the last calls differ from the original, bit for bit:
    /// status, x, y, z, clearance, count, and the chart's written points.
    pub fn agrees(&self) -> Result<(), String> {
        self.chart.as_ref().map_or(Ok(()), Repeated::agrees)?;
        self.pick.agrees()
    }

    /// The point that must be answered.
    pub fn point(&self) -> [u64; 3] {
        let [x, y, z, ..] = self.pick.left.numbers;
        [x, y, z]
    }
}

/// The images of the chart's written points, and of its answer at last.
fn evaluate(surface: &Surface, points: &[f64], answer: &[f64], images: &mut [f64]) {
    let all = points.chunks_exact(2).chain([&answer[..2]]);
    for (image, uv) in images.chunks_exact_mut(3).zip(all) {
        let point = surface.point(uv[0], uv[1]);
        image.copy_from_slice(&point.expect("a surface that is evaluated everywhere"));
    }
}
