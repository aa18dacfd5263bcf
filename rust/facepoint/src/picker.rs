//! The three calls on a sheet.

use crate::archive::{self, Five};
use crate::{Refusal, Sheet, Uv, Xyz};

/// Where a torus' chart is cut open. The others have phase 0 alone.
#[derive(Clone, Copy, Debug, PartialEq, Eq, Hash)]
pub enum Phase {
    /// The chart as the sheet has it.
    Zero,
    /// Each v is moved by half a turn before the chart is laid out, and back in what
    /// is answered: the seam of v leaves the inner side of the tube.
    One,
}

impl Phase {
    /// The phase's number in a call.
    pub const fn number(self) -> u32 {
        match self {
            Phase::Zero => 0,
            Phase::One => 1,
        }
    }
}

/// A point on a face.
#[derive(Clone, Copy, Debug, PartialEq)]
pub struct Pick {
    /// The point in space.
    pub point: Xyz,
    /// Its distance from the nearest trim in the chart, where the box around the
    /// trims is 1 wide and 1 high.
    pub clearance: f64,
    /// How many of the 961 grid points lie on the face.
    pub count: u32,
}

/// A point of a face's chart, and the trims laid out in it.
#[derive(Clone, Debug, PartialEq)]
pub struct Chart {
    /// The chosen point.
    pub uv: Uv,
    /// Its clearance, as in [`Pick`].
    pub clearance: f64,
    /// How many of the 961 grid points lie on the face, as in [`Pick`].
    pub count: u32,
    /// The sheet's points in its order, each moved by whole turns to the one before it.
    /// [`image_pick`] takes the images of these, and then that of `uv`.
    pub points: Vec<Uv>,
}

/// The count goes as an f64, which holds every u32.
fn count(number: f64) -> u32 {
    number as u32
}

fn pick([x, y, z, clearance, covered]: Five) -> Pick {
    Pick {
        point: [x, y, z],
        clearance,
        count: count(covered),
    }
}

/// Lays out a sheet's chart and chooses the point.
///
/// # Errors
///
/// Refusals 1 to 8 and 11 to 14. (9 cannot come: the list that is lent to the call has
/// room for every point.)
pub fn chart(sheet: &Sheet, phase: Phase) -> Result<Chart, Refusal> {
    let mut points = vec![[0.0; 2]; sheet.point_count()];
    let lent = points.as_flattened_mut();
    let [u, v, _, clearance, covered] = archive::chart(sheet.bytes(), phase.number(), lent)?;
    Ok(Chart {
        uv: [u, v],
        clearance,
        count: count(covered),
        points,
    })
}

/// Picks on a surface that the caller evaluates: `images` are those of the points of
/// [`chart`] at the same phase, and then that of the chosen point, which is the point
/// answered if it is clear of the trims in space, too.
///
/// # Errors
///
/// Refusals 1 to 8 and 10 to 15.
///
/// ```
/// use facepoint::{chart, image_pick, Face, Kind, Phase, Ring, Sense};
///
/// // A quarter of a tube of radius 2, from height 0 to 1.
/// let trim = Ring::polygon(&[[0.0, 0.0], [1.5, 0.0], [1.5, 1.0], [0.0, 1.0]]);
/// let sheet = Face::new(Kind::Cylinder, Sense::Forward).ring(trim).sheet()?;
/// let chart = chart(&sheet, Phase::Zero)?;
/// let on_tube = |[u, v]: [f64; 2]| [2.0 * u.cos(), 2.0 * u.sin(), v];
/// let points = chart.points.iter().copied().chain([chart.uv]);
/// let images: Vec<[f64; 3]> = points.map(on_tube).collect();
/// let pick = image_pick(&sheet, Phase::Zero, &images)?;
/// assert_eq!(pick.point, on_tube([0.75, 0.5]));
/// # Ok::<(), Box<dyn std::error::Error>>(())
/// ```
pub fn image_pick(sheet: &Sheet, phase: Phase, images: &[Xyz]) -> Result<Pick, Refusal> {
    archive::image_pick(sheet.bytes(), phase.number(), images.as_flattened()).map(pick)
}

/// Picks on a plane, whose numbers are on the sheet.
///
/// # Errors
///
/// Refusals 1 to 8 and 12 to 15.
pub fn plane_pick(sheet: &Sheet) -> Result<Pick, Refusal> {
    archive::plane_pick(sheet.bytes()).map(pick)
}
