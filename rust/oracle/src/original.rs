//! Drives the original: a sheet becomes the rows that `pick` walks, and the
//! shims hand out the sheet's numbers.

mod after;
mod prepared;

pub use prepared::Prepared;

use std::f64::consts::PI;

use crate::copies;
use crate::geometry::SurfaceGeometry;
use crate::recorder::{self, Record};
use crate::sheet::{Plane, Sheet, Uv, FORWARD, PLANE, REVERSED, SAMPLES};
use crate::shims::json::Value;
use crate::shims::scene::{self, Evaluation, Sample, Scene};
use crate::shims::Context;
use crate::surface::Surface;

type Picked = Option<[f64; 3]>;
/// The points of an edge and their deviation.
type Sampled = Option<(Vec<Uv>, f64)>;
/// Middle angle and height.
type Middle = Option<(f64, f64)>;

/// One of the copies of the original that build.rs makes.
#[derive(Clone, Copy)]
pub struct Copy {
    pick: fn(&Context, &Value, &Value, f64) -> Picked,
    point: fn(&Context, &Value, &Value) -> Picked,
    spherical_triangle: fn(&Context, &Value, &Value) -> Picked,
    sample_parameter: fn([f64; 2], usize) -> f64,
    edge_points: fn(&Context, &Value, &SurfaceGeometry) -> Sampled,
    point_on: fn(&Context, &Value) -> Picked,
    middle: fn(&[f64], Vec<f64>) -> Middle,
    placed: fn(&Value, [f64; 3]) -> Picked,
    pub inside: fn(&[Uv], Uv) -> bool,
    pub periodic_winding: fn(&[Vec<Uv>], Uv, f64) -> i32,
}

macro_rules! copy {
    ($name:ident) => {
        Copy {
            pick: copies::$name::faces::exports::pick,
            point: copies::$name::faces::exports::point,
            spherical_triangle: copies::$name::faces::exports::spherical_triangle,
            sample_parameter: copies::$name::faces::exports::sample_parameter,
            edge_points: copies::$name::faces::exports::edge_points,
            point_on: copies::$name::faces::calls::point_on,
            middle: copies::$name::faces::middle,
            placed: copies::$name::faces::calls::placed,
            inside: copies::$name::faces::exports::inside,
            periodic_winding: copies::$name::faces::exports::periodic_winding,
        }
    };
}

/// The original with document 01's stand-in for `hypot`, nothing else changed.
pub const STAND_IN: Copy = copy!(stand_in);
/// The same with recorders.
pub const RECORDED: Copy = copy!(recorded);
/// The original as published, with the standard library's `hypot`.
pub const PUBLISHED: Copy = copy!(published);

/// What a run of `pick` shows.
#[derive(Clone, Debug)]
pub struct Run {
    pub point: Picked,
    /// The surface evaluations after `edge_points`: the candidate's u and v,
    /// then the moved points of the boundary in file order.
    pub calls: Vec<Uv>,
    /// Empty unless the copy has recorders.
    pub record: Record,
}

impl Copy {
    /// `pick` of uv.rs at document 01's phase, 0 or 1.
    pub fn pick(&self, sheet: &Sheet, phase: u32, surface: Surface) -> Run {
        self.pick_evaluated(sheet, phase, evaluated_on(sheet, surface))
    }

    /// The same with the images of the chart's written points and of its answer,
    /// the answer's last, in place of a surface. `pick` asks for that one first.
    pub fn pick_with_images(&self, sheet: &Sheet, phase: u32, images: &[f64]) -> Run {
        let mut points: Vec<[f64; 3]> =
            images.chunks_exact(3).map(|p| [p[0], p[1], p[2]]).collect();
        points.rotate_right(1);
        self.pick_evaluated(sheet, phase, Evaluation::InOrder(points))
    }

    fn pick_evaluated(&self, sheet: &Sheet, phase: u32, evaluation: Evaluation) -> Run {
        let scene = Scene::new(samples(sheet), evaluation);
        self.run(rows(sheet), scene, |rows| {
            (self.pick)(&rows.context, &rows.face, &rows.geometry, angle(phase))
        })
    }

    /// `point` of uv.rs: `pick`, on a torus once more at the other phase.
    pub fn point(&self, sheet: &Sheet, surface: Surface) -> Run {
        let scene = Scene::new(samples(sheet), evaluated_on(sheet, surface));
        self.point_of(rows(sheet), scene)
    }

    fn point_of(&self, rows: Rows, scene: Scene) -> Run {
        self.run(rows, scene, |rows| {
            (self.point)(&rows.context, &rows.face, &rows.geometry)
        })
    }

    /// `spherical_triangle` of uv.rs, which `pick` tries first on a sphere.
    pub fn spherical_triangle(&self, sheet: &Sheet, surface: Surface) -> Picked {
        let triangle = self.spherical_triangle;
        let scene = Scene::new(samples(sheet), evaluated_on(sheet, surface));
        let run = self.run(rows(sheet), scene, |rows| {
            triangle(&rows.context, &rows.face, &rows.geometry)
        });
        run.point
    }

    fn run(&self, rows: Rows, scene: Scene, call: impl FnOnce(&Rows) -> Picked) -> Run {
        scene::set(scene);
        recorder::reset();
        let point = call(&rows);
        let scene = scene::take().expect("the scene set above");
        Run {
            point,
            calls: scene.calls,
            record: recorder::record(),
        }
    }
}

/// What `pick` is handed for document 01's phase.
fn angle(phase: u32) -> f64 {
    if phase == 0 {
        0.0
    } else {
        PI
    }
}

/// A −0 of a sheet is read as +0, by the oracle too.
fn read(x: f64) -> f64 {
    if x == 0.0 {
        0.0
    } else {
        x
    }
}

/// A plane is evaluated by the stand-in on the sheet's own numbers.
fn evaluated_on(sheet: &Sheet, surface: Surface) -> Evaluation {
    if sheet.kind != PLANE {
        return Evaluation::On(surface);
    }
    Evaluation::On(Surface::Plane(Plane {
        origin: sheet.plane.origin.map(read),
        u_axis: sheet.plane.u_axis.map(read),
        normal: sheet.plane.normal.map(read),
    }))
}

fn samples(sheet: &Sheet) -> Vec<Sample> {
    let mut samples = Vec::with_capacity(sheet.point_count());
    for coedge in sheet.coedges() {
        let deviation = read(coedge.deviation);
        samples.extend(coedge.points.iter().map(|uv| Sample {
            uv: uv.map(read),
            deviation,
        }));
    }
    samples
}

struct Rows {
    context: Context,
    face: Value,
    geometry: Value,
}

fn rows(sheet: &Sheet) -> Rows {
    let mut context = Context::default();
    let mut loops = Vec::new();
    let mut coedges = 0;
    for (index, ring) in sheet.rings.iter().enumerate() {
        let ids = (coedges..coedges + ring.0.len()).map(|k| coedge(&mut context, k));
        let boundary = Value::Object(vec![("coedges", Value::List(ids.collect()))]);
        let row = Value::Object(vec![("boundary", boundary)]);
        context.insert("loops", index.to_string(), row);
        loops.push(Value::Text(index.to_string()));
        coedges += ring.0.len();
    }
    let loops = Value::Object(vec![("loops", Value::List(loops))]);
    let mut face = vec![("loops", loops)];
    match sheet.sense {
        FORWARD => face.push(("sense", Value::text("forward"))),
        REVERSED => face.push(("sense", Value::text("reversed"))),
        _ => {}
    }
    Rows {
        context,
        face: Value::Object(face),
        geometry: geometry(sheet.kind),
    }
}

/// The rows of one coedge: its edge, and the carrier whose parameter counts its
/// samples from 0 to 16. The carrier is no circle, so on a sphere the triangle,
/// which document 01 makes a call of its own, never answers.
fn coedge(context: &mut Context, index: usize) -> Value {
    let id = index.to_string();
    let link = |key, id: &str| Value::Object(vec![(key, Value::text(id))]);
    context.insert("coedges", id.clone(), link("edge", &id));
    let range = [0.0, 16.0].map(Value::Number);
    let carrier = Value::Object(vec![
        ("curve", Value::text(&id)),
        ("param_range", Value::List(range.into())),
    ]);
    let edge = Value::Object(vec![("carrier", carrier)]);
    context.insert("edges", id.clone(), edge);
    let geometry = Value::Object(vec![
        ("kind", Value::text("samples")),
        ("first_sample", Value::Number((SAMPLES * index) as f64)),
    ]);
    let curve = Value::Object(vec![("geometry", geometry)]);
    context.insert("curves", id.clone(), curve);
    Value::Text(id)
}

fn geometry(kind: u8) -> Value {
    let names = [
        "plane", "cylinder", "cone", "sphere", "torus", "nurbs", "other",
    ];
    let mut fields = vec![("kind", Value::text(names[usize::from(kind)]))];
    if names[usize::from(kind)] == "sphere" {
        fields.push(("center", Value::vector([0.0; 3])));
        fields.push(("radius", Value::Number(1.0)));
    }
    Value::Object(fields)
}
