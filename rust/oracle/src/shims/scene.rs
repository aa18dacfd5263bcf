//! What the geometry shims answer from: one sheet's samples and the surface of
//! the final part. One scene for each thread, as the original runs on its
//! caller's and the shims are reached through it alone.

use std::cell::RefCell;

use crate::after::Side;
use crate::sheet::{Uv, SAMPLES};
use crate::surface::Surface;

/// A point of the sheet as `edge_points` is to find it.
#[derive(Clone, Copy)]
pub struct Sample {
    pub uv: Uv,
    pub deviation: f64,
}

/// Where the final part gets its points from.
pub enum Evaluation {
    On(Surface),
    /// The points in the order in which they are asked for, whatever u and v.
    InOrder(Vec<[f64; 3]>),
    /// The images of a trim's first and last point, where u is 0 and 16.
    Ends([[f64; 3]; 2]),
}

pub struct Scene {
    /// All points of the sheet in file order; the index names the sample.
    pub samples: Vec<Sample>,
    /// The coedges as sides of a triangle, where the face is one.
    pub sides: Vec<Side>,
    evaluation: Evaluation,
    /// The sample at which a side's circle was evaluated last.
    on_circle: Option<usize>,
    /// The sample whose parameters were just asked for, and the point for which: the
    /// evaluation that follows measures its deviation.
    pending: Option<(usize, [f64; 3])>,
    /// The surface evaluations of the final part, in order.
    pub calls: Vec<Uv>,
}

impl Scene {
    pub fn new(samples: Vec<Sample>, evaluation: Evaluation) -> Scene {
        Scene {
            samples,
            sides: Vec::new(),
            evaluation,
            on_circle: None,
            pending: None,
            calls: Vec::new(),
        }
    }

    /// A point that names the sample.
    pub fn name(index: usize) -> [f64; 3] {
        [index as f64, 0.0, 0.0]
    }

    /// A side's circle, whose coedge has its samples from `first` on: at the ends of
    /// its range what the side has there, between them a point that names the sample.
    /// Where there is no sheet beside the sides, the next point in order.
    pub fn circle_point(&mut self, first: usize, t: f64) -> Option<[f64; 3]> {
        let Some(side) = self.sides.get(first / SAMPLES) else {
            return self.evaluate([t, 0.0]);
        };
        let [from, to] = side.range;
        let n = (16.0 * (t - from) / (to - from)).round() as usize;
        self.on_circle = Some(first + n);
        Some(match n {
            0 => side.evaluated[0],
            16 => side.evaluated[1],
            _ => Scene::name(first + n),
        })
    }

    /// The chart point of a point on a curve: of the sample that it names, or at which
    /// a circle was evaluated just before.
    pub fn parameters(&mut self, p: [f64; 3]) -> Option<Uv> {
        let index = self.on_circle.take().unwrap_or(p[0] as usize);
        self.pending = Some((index, p));
        self.samples.get(index).map(|sample| sample.uv)
    }

    /// Right after `parameters`: a point exactly the sample's deviation away from its
    /// name, as root(d×d) is d, and at a side's end the end itself, since the greatest
    /// deviation of a coedge is all that is asked for. Later: a point of the final part.
    pub fn evaluate(&mut self, uv: Uv) -> Option<[f64; 3]> {
        if let Some((index, p)) = self.pending.take() {
            let named = p == Scene::name(index);
            let deviation = if named {
                self.samples[index].deviation
            } else {
                0.0
            };
            return Some([p[0], p[1] + deviation, p[2]]);
        }
        self.calls.push(uv);
        match &self.evaluation {
            Evaluation::On(surface) => surface.point(uv[0], uv[1]),
            Evaluation::InOrder(points) => points.get(self.calls.len() - 1).copied(),
            Evaluation::Ends([first, last]) => match uv[0] {
                0.0 => Some(*first),
                16.0 => Some(*last),
                _ => None,
            },
        }
    }
}

thread_local! {
    static SCENE: RefCell<Option<Scene>> = const { RefCell::new(None) };
}

pub fn set(scene: Scene) {
    SCENE.with(|cell| cell.replace(Some(scene)));
}

pub fn take() -> Option<Scene> {
    SCENE.with(RefCell::take)
}

/// Makes room for the evaluations of another run on the same scene.
pub fn forget_calls() {
    with(|scene| {
        scene.calls.clear();
        Some(())
    });
}

/// None where no scene is set.
pub fn with<T>(ask: impl FnOnce(&mut Scene) -> Option<T>) -> Option<T> {
    SCENE.with(|cell| cell.borrow_mut().as_mut().and_then(ask))
}
