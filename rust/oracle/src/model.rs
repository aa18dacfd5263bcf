//! Document 01 as a program: over the bytes of a sheet reader, chart, image pick
//! and plane pick with their refusal numbers, clearance and count, and over numbers
//! and lists the calls after the picker. Written from the document, in its order, apart
//! from the original; where the two texts differ the Rust prevails. Plain and slow on
//! purpose.

mod after;
mod chart;
mod fallbacks;
mod fault;
mod leaves;
mod point;
mod reader;
pub(crate) mod space;
mod triangle;

pub use after::Found;
pub use fault::Fault;

use chart::Chart;
use reader::{Layout, Plane};

/// The greatest magnitude of an image's coordinate, 2^30.
const FARTHEST_IMAGE: f64 = 1_073_741_824.0;

/// The outcome of a call: a point, or the number of a refusal.
#[derive(Clone, Copy, Debug)]
pub enum Answer {
    Point {
        x: f64,
        y: f64,
        z: f64,
        clearance: f64,
        count: u32,
    },
    Refused(u32),
}

impl Answer {
    /// Bit for bit, count and refusal number included.
    pub fn same(&self, other: &Answer) -> bool {
        self.numbers() == other.numbers()
    }

    /// Status, then the five result numbers: x, y, z, clearance, count, as bits.
    /// With a refusal all five are 0.
    pub fn numbers(&self) -> (u32, [u64; 5]) {
        match *self {
            Answer::Refused(number) => (number, [0; 5]),
            Answer::Point {
                x,
                y,
                z,
                clearance,
                count,
            } => {
                let numbers = [x, y, z, clearance, f64::from(count)];
                (0, numbers.map(f64::to_bits))
            }
        }
    }
}

/// Document 01, with one planted fault or none.
#[derive(Clone, Copy, Debug)]
pub struct Model {
    fault: Fault,
}

/// The model without a fault.
pub const MODEL: Model = Model { fault: Fault::None };

impl Model {
    pub fn with(fault: Fault) -> Model {
        Model { fault }
    }

    fn is(&self, fault: Fault) -> bool {
        self.fault == fault
    }

    /// Chart (sheet, phase, output list). Refusals 1 to 9 and 11 to 14.
    pub fn chart(&self, sheet: &[u8], phase: u32, output: &mut [f64]) -> Answer {
        match self.charted(sheet, phase, output.len()) {
            Ok(chart) => {
                self.write(&chart, output);
                self.chart_answer(&chart)
            }
            Err(number) => Answer::Refused(number),
        }
    }

    fn charted(&self, sheet: &[u8], phase: u32, room: usize) -> Result<Chart, u32> {
        let layout = self.read(sheet)?;
        check_phase(&layout, phase)?;
        if room < 2 * layout.point_count() {
            return Err(9);
        }
        self.prepare_and_search(layout, phase)
    }

    /// Image pick (sheet, phase, images). Refusals 1 to 8 and 10 to 15.
    pub fn image_pick(&self, sheet: &[u8], phase: u32, images: &[f64]) -> Answer {
        self.image_picked(sheet, phase, images)
            .unwrap_or_else(Answer::Refused)
    }

    fn image_picked(&self, sheet: &[u8], phase: u32, images: &[f64]) -> Result<Answer, u32> {
        let layout = self.read(sheet)?;
        check_phase(&layout, phase)?;
        self.check_images(&layout, images)?;
        let chart = self.prepare_and_search(layout, phase)?;
        let images: Vec<[f64; 3]> = images.chunks_exact(3).map(|p| [p[0], p[1], p[2]]).collect();
        self.answer_in_space(&chart, &images)
    }

    /// Plane pick (sheet). Refusals 1 to 8 and 12 to 15.
    pub fn plane_pick(&self, sheet: &[u8]) -> Answer {
        self.plane_picked(sheet).unwrap_or_else(Answer::Refused)
    }

    fn plane_picked(&self, sheet: &[u8]) -> Result<Answer, u32> {
        let layout = self.read(sheet)?;
        let plane = self.plane_of(&layout).ok_or(8u32)?;
        let chart = self.prepare_and_search(layout, 0)?;
        let images: Vec<[f64; 3]> = self
            .written(&chart)
            .chain([self.chart_point(&chart)])
            .map(|[u, v]| self.on_plane(&plane, u, v))
            .collect();
        self.answer_in_space(&chart, &images)
    }

    /// Check 8 of plane pick: kind 0 alone has a plane.
    fn plane_of(&self, layout: &Layout) -> Option<Plane> {
        if layout.kind == 6 && self.is(Fault::PlanePickOnOther) {
            return Some(Plane::FLAT);
        }
        layout.plane
    }

    /// Check 10: not 3 × (points + 1) long, or an entry not finite or above 2^30
    /// in magnitude.
    fn check_images(&self, layout: &Layout, images: &[f64]) -> Result<(), u32> {
        let points = layout.point_count();
        let length = match self.fault {
            Fault::ImageListOfPointsAlone => 3 * points,
            Fault::ImageListMayBeLonger => images.len().max(3 * (points + 1)),
            _ => 3 * (points + 1),
        };
        let checked = match self.fault {
            Fault::LastImageUnchecked => &images[..images.len().min(3 * points)],
            _ => images,
        };
        if images.len() != length || !checked.iter().all(|x| self.image_passes(*x)) {
            return Err(10);
        }
        Ok(())
    }

    fn image_passes(&self, x: f64) -> bool {
        let far = match self.fault {
            Fault::ImageAtLimitRefused => x.abs() >= FARTHEST_IMAGE,
            Fault::NegativeImageUnbounded => x > FARTHEST_IMAGE,
            _ => x.abs() > FARTHEST_IMAGE,
        };
        x.is_finite() && !far
    }
}

/// Check 8 of chart and image pick: phase not 0 or 1; 1 off a torus.
fn check_phase(layout: &Layout, phase: u32) -> Result<(), u32> {
    if phase > 1 || (phase == 1 && layout.kind != 4) {
        return Err(8);
    }
    Ok(())
}
