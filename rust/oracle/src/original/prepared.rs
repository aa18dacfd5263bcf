//! One sheet with its rows and its scene made beforehand, so that what is timed of
//! a copy is `pick` itself with the shims' answers to it.

use super::{angle, evaluated_on, rows, samples, Copy, Picked, Rows};
use crate::eval::{admission::EvaluationAdmission, decode};
use crate::from_value;
use crate::geometry::SurfaceGeometry;
use crate::sheet::{Sheet, Uv};
use crate::shims::scene::{self, Scene};
use crate::surface::Surface;

pub struct Prepared {
    sheet: Sheet,
    surface: Surface,
    phase: f64,
    rows: Rows,
    geometry: SurfaceGeometry,
}

impl Prepared {
    pub fn new(sheet: &Sheet, phase: u32, surface: Surface) -> Prepared {
        let rows = rows(sheet);
        let geometry = from_value(rows.geometry.clone());
        Prepared {
            sheet: sheet.clone(),
            surface,
            phase: angle(phase),
            rows,
            geometry: geometry.expect("rows have a geometry"),
        }
    }

    /// Makes the shims answer for this sheet, on this thread, until the next scene.
    pub fn set_scene(&self) {
        let evaluation = evaluated_on(&self.sheet, self.surface);
        scene::set(Scene::new(samples(&self.sheet), evaluation));
    }

    /// `pick` of the copy; the scene must be this sheet's.
    pub fn pick(&self, copy: &Copy) -> Picked {
        scene::forget_calls();
        let Rows {
            context,
            face,
            geometry,
        } = &self.rows;
        (copy.pick)(context, face, geometry, self.phase)
    }

    /// The evaluations that `pick` asks for at its end, by the same shim. How many
    /// of them there are.
    pub fn evaluate(&self, points: &[Uv]) -> usize {
        scene::forget_calls();
        let evaluated = points.iter().filter(|[u, v]| {
            let standard = EvaluationAdmission::Standard;
            decode::surface_point(standard, &self.geometry, *u, *v).is_ok()
        });
        evaluated.count()
    }
}
