//! Drawings of sheets: the trims, the grid that the picker searches, its point.

mod page;
mod text;
mod trims;

use crate::{chart, plane_pick, Chart, Face, Kind, Phase, Pick, Refusal, Sheet};
use trims::{GridPoint, Trims};

/// Draws a sheet as an SVG file's text, in u and v: each ring in a colour of its own,
/// the grid points on the face, the darker the clearer, and the chosen point inside
/// its clearance. A sheet without a point is drawn as far as it can be read, with the
/// refusal's name.
///
/// A plane has its true proportions, of which those beyond 3 to 1 are shortened; all
/// else is drawn as a square. The clearance is a distance in the box around the trims
/// when that is 1 wide and 1 high, so that on the page it may be an ellipse.
///
/// Grid and clearances are worked out here by document 01's rules, since the calls
/// answer nothing but the chosen point's; tests hold them against the calls.
///
/// The same sheet and title give the same text on every machine.
///
/// ```
/// use facepoint::{picture, Face, Kind, Plane, Ring, Sense};
///
/// let trim = Ring::polygon(&[[0.0, 0.0], [3.0, 0.0], [0.0, 2.0]]);
/// let sheet = Face::new(Kind::Plane(Plane::XY), Sense::Forward).ring(trim).sheet()?;
/// let text = picture::svg(&sheet, "A triangle");
/// assert!(text.starts_with("<svg ") && text.contains(">A triangle</text>"));
/// # Ok::<(), Box<dyn std::error::Error>>(())
/// ```
pub fn svg(sheet: &Sheet, title: &str) -> String {
    page::text(title, &Seen::of(sheet))
}

/// What is to be seen of a sheet.
struct Seen {
    answer: Result<Point, Refusal>,
    /// None where the layout does not read.
    drawn: Option<Drawn>,
}

/// The chosen point: in the chart, and in space where the surface is on the sheet.
struct Point {
    chart: Chart,
    pick: Option<Pick>,
}

struct Drawn {
    face: Face,
    phase: Phase,
    trims: Trims,
    /// Nothing where the picker does not come to its grid.
    grid: Vec<GridPoint>,
}

impl Seen {
    fn of(sheet: &Sheet) -> Seen {
        let face = sheet.face();
        let kind = face.as_ref().map(|face| face.kind);
        let (phase, chart) = match chart(sheet, Phase::Zero) {
            Err(_) if kind == Some(Kind::Torus) => (Phase::One, chart(sheet, Phase::One)),
            chart => (Phase::Zero, chart),
        };
        let searched = matches!(chart, Ok(_) | Err(Refusal::NoneClear));
        let drawn = face.map(|face| {
            let trims = Trims::of(&face, phase);
            let grid = if searched { trims.grid() } else { Vec::new() };
            Drawn {
                face,
                phase,
                trims,
                grid,
            }
        });
        let answer = chart.and_then(|chart| {
            let plane = matches!(kind, Some(Kind::Plane(_)));
            let pick = plane.then(|| plane_pick(sheet)).transpose()?;
            Ok(Point { chart, pick })
        });
        Seen { answer, drawn }
    }
}
