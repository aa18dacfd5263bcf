//! What the original's `point` does around the picker: the triangle first on a
//! sphere, the images by the caller's evaluation, the second phase of a torus.

use std::error::Error;
use std::fmt;
use std::num::NonZeroUsize;
use std::panic::resume_unwind;
use std::sync::atomic::{AtomicUsize, Ordering};
use std::thread;

use crate::{
    chart, image_pick, plane_pick, spherical_triangle, Kind, Phase, Pick, Plane, Refusal, Sheet,
    Triangle, Uv, Xyz,
};

/// The surface of a face, as the caller evaluates it.
///
/// A function of u and v is one already:
///
/// ```
/// use std::f64::consts::TAU;
/// use facepoint::{pick_face, Coedge, Face, Kind, Sense};
///
/// // A whole tube of radius 2, from height 0 to 1: a ring around at either end.
/// let bottom = Coedge::line([0.0, 0.0], [TAU, 0.0]);
/// let top = Coedge::line([TAU, 1.0], [0.0, 1.0]);
/// let face = Face::new(Kind::Cylinder, Sense::Forward);
/// let sheet = face.ring(vec![bottom]).ring(vec![top]).sheet()?;
/// let tube = |u: f64, v: f64| Some([2.0 * u.cos(), 2.0 * u.sin(), v]);
/// assert_eq!(pick_face(&sheet, &tube)?.point[2], 0.5);
/// # Ok::<(), Box<dyn std::error::Error>>(())
/// ```
pub trait Surface {
    /// The point of u and v; none where the surface cannot be evaluated.
    fn evaluate(&self, u: f64, v: f64) -> Option<Xyz>;

    /// The face as a triangle of great circles, where it is on a sphere and has one
    /// ring of three circular edges.
    fn triangle(&self) -> Option<Triangle> {
        None
    }
}

impl<F: Fn(f64, f64) -> Option<Xyz>> Surface for F {
    fn evaluate(&self, u: f64, v: f64) -> Option<Xyz> {
        self(u, v)
    }
}

/// A point inside a face, and how it was found.
#[derive(Clone, Copy, Debug, PartialEq)]
pub struct FacePick {
    /// The point in space.
    pub point: Xyz,
    /// How it was found.
    pub by: By,
}

/// How [`pick_face`] found a point.
#[derive(Clone, Copy, Debug, PartialEq)]
pub enum By {
    /// As the middle of a triangle on a sphere.
    Triangle,
    /// On the grid of the chart.
    Grid {
        /// The chart's phase.
        phase: Phase,
        /// The point's clearance, as in [`Pick`].
        clearance: f64,
        /// How many of the 961 grid points lie on the face.
        count: u32,
    },
}

/// Why [`pick_face`] found no point; of a torus, why its second phase did not.
#[derive(Clone, Copy, Debug, PartialEq)]
pub enum FaceError {
    /// A call refused.
    Refused(Refusal),
    /// The surface could not be evaluated at this point of the chart.
    NotEvaluated(Uv),
}

impl From<Refusal> for FaceError {
    fn from(refusal: Refusal) -> FaceError {
        FaceError::Refused(refusal)
    }
}

impl fmt::Display for FaceError {
    fn fmt(&self, f: &mut fmt::Formatter) -> fmt::Result {
        match self {
            FaceError::Refused(refusal) => refusal.fmt(f),
            FaceError::NotEvaluated([u, v]) => {
                write!(f, "the surface cannot be evaluated at u = {u}, v = {v}")
            }
        }
    }
}

impl Error for FaceError {
    fn source(&self) -> Option<&(dyn Error + 'static)> {
        match self {
            FaceError::Refused(refusal) => Some(refusal),
            FaceError::NotEvaluated(_) => None,
        }
    }
}

/// Finds a point inside a face, as the original's `point` does:
///
/// 1. On a sphere, where the surface has a [`triangle`](Surface::triangle): its
///    middle, whatever else the sheet holds. A refusal of it counts for nothing.
/// 2. The [`chart`] at phase 0, the surface at each of its points and at the chosen
///    one, the [`image_pick`].
/// 3. On a torus, after any failure of step 2 (a refusal or a surface that could not
///    be evaluated): step 2 again, at phase 1.
///
/// A plane's sheet goes to [`plane_pick`], and the surface is not asked: the plane's
/// numbers are on the sheet, and its evaluation is then part of what is proved.
///
/// A face of which no sheet could be made, as where a trim runs through a pole, may
/// still have a triangle: [`spherical_triangle`] is a call of its own.
///
/// # Errors
///
/// The last step's: a refusal, or the point at which the surface could not be
/// evaluated.
///
/// # Panics
///
/// Where the surface does: a panic of `evaluate` or `triangle` is the caller's and is
/// not caught, unlike in the original, which takes it for no point.
pub fn pick_face<S>(sheet: &Sheet, surface: &S) -> Result<FacePick, FaceError>
where
    S: Surface + ?Sized,
{
    if let Some(point) = triangle_of(sheet, surface) {
        let by = By::Triangle;
        return Ok(FacePick { point, by });
    }
    let first = at_phase(sheet, surface, Phase::Zero);
    if first.is_err() && sheet.kind_code() == Some(Kind::Torus.code()) {
        return at_phase(sheet, surface, Phase::One);
    }
    first
}

fn triangle_of<S: Surface + ?Sized>(sheet: &Sheet, surface: &S) -> Option<Xyz> {
    if sheet.kind_code() != Some(Kind::Sphere.code()) {
        return None;
    }
    spherical_triangle(&surface.triangle()?, sheet.sense()?).ok()
}

fn at_phase<S>(sheet: &Sheet, surface: &S, phase: Phase) -> Result<FacePick, FaceError>
where
    S: Surface + ?Sized,
{
    let pick = if sheet.kind_code() == Some(Kind::Plane(Plane::XY).code()) {
        plane_pick(sheet)?
    } else {
        on_surface(sheet, surface, phase)?
    };
    let Pick {
        point,
        clearance,
        count,
    } = pick;
    let by = By::Grid {
        phase,
        clearance,
        count,
    };
    Ok(FacePick { point, by })
}

fn on_surface<S>(sheet: &Sheet, surface: &S, phase: Phase) -> Result<Pick, FaceError>
where
    S: Surface + ?Sized,
{
    let chart = chart(sheet, phase)?;
    let image = |uv: Uv| {
        let [u, v] = uv;
        surface.evaluate(u, v).ok_or(FaceError::NotEvaluated(uv))
    };
    let points = chart.points.iter().copied().chain([chart.uv]);
    let images = points.map(image).collect::<Result<Vec<Xyz>, _>>()?;
    Ok(image_pick(sheet, phase, &images)?)
}

/// Does [`pick_face`] for every face, on so many threads, and answers in the faces'
/// order.
///
/// The calls are pure: they keep nothing between them and take no memory from the
/// heap, so the answers are those of one thread, bit for bit, for every number of
/// threads (if the surfaces are pure, too). [`std::thread::available_parallelism`]
/// is a good number. A thread that the system refuses is done without; the calling
/// one works, too.
///
/// ```
/// use std::num::NonZeroUsize;
/// use facepoint::{pick_all, Face, Kind, Plane, Ring, Sense, Sheet, Surface};
///
/// let square = |size: f64| -> Result<Sheet, facepoint::BuildError> {
///     let trim = Ring::polygon(&[[0.0, 0.0], [size, 0.0], [size, size], [0.0, size]]);
///     Face::new(Kind::Plane(Plane::XY), Sense::Forward).ring(trim).sheet()
/// };
/// let sheets = [square(1.0)?, square(2.0)?, square(0.0)?];
/// let no_surface = |_, _| None; // a plane's is on its sheet
/// let faces: Vec<(&Sheet, &(dyn Surface + Sync))> =
///     sheets.iter().map(|sheet| (sheet, &no_surface as _)).collect();
/// let picks = pick_all(&faces, NonZeroUsize::new(2).expect("not 0"));
/// assert_eq!(picks[1].as_ref().map(|pick| pick.point), Ok([1.0, 1.0, 0.0]));
/// assert!(picks[2].is_err());
/// # Ok::<(), Box<dyn std::error::Error>>(())
/// ```
///
/// # Panics
///
/// Where a surface does, after the other threads have ended.
pub fn pick_all(
    faces: &[(&Sheet, &(dyn Surface + Sync))],
    threads: NonZeroUsize,
) -> Vec<Result<FacePick, FaceError>> {
    // Faces differ much in their work, so each thread takes the next one.
    let next = AtomicUsize::new(0);
    let work = || {
        let mut done = Vec::new();
        loop {
            let index = next.fetch_add(1, Ordering::Relaxed);
            let Some((sheet, surface)) = faces.get(index) else {
                return done;
            };
            done.push((index, pick_face(sheet, *surface)));
        }
    };
    let beside = threads.get().min(faces.len()).saturating_sub(1);
    let mut done = thread::scope(|scope| {
        let spawn = |_| thread::Builder::new().spawn_scoped(scope, work);
        let others: Vec<_> = (0..beside).map_while(|k| spawn(k).ok()).collect();
        let mut done = work();
        for other in others {
            done.extend(other.join().unwrap_or_else(|panic| resume_unwind(panic)));
        }
        done
    });
    done.sort_unstable_by_key(|(index, _)| *index);
    done.into_iter().map(|(_, pick)| pick).collect()
}
