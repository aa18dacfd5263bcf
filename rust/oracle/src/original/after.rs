//! Drives the original's functions that are calls after the picker: the numbers of
//! a call become the rows that the function walks.

use super::{evaluated_on, rows, samples, Copy, Picked, Run};
use crate::after::{Side, Triangle};
use crate::geometry::SurfaceGeometry;
use crate::recorder::{self, Stage};
use crate::sheet::{Sheet, FORWARD, REVERSED, SAMPLES};
use crate::shims::json::{from_value, Value};
use crate::shims::scene::{self, Evaluation, Scene};
use crate::shims::Context;
use crate::surface::Surface;

type V3 = [f64; 3];

fn object(fields: &[(&'static str, Value)]) -> Value {
    Value::Object(fields.to_vec())
}

fn numbers(list: &[f64]) -> Value {
    Value::List(list.iter().map(|x| Value::Number(*x)).collect())
}

/// A vertex with its point, both of this id.
fn vertex(context: &mut Context, id: &str, position: V3) -> Value {
    let point = object(&[("position", Value::vector(position))]);
    context.insert("points", id.to_owned(), point);
    context.insert(
        "vertices",
        id.to_owned(),
        object(&[("point", Value::text(id))]),
    );
    Value::text(id)
}

/// A face of one loop, of so many coedges with their numbers for ids.
fn face_of(context: &mut Context, coedges: usize) -> Vec<(&'static str, Value)> {
    let ids = (0..coedges).map(|k| Value::Text(k.to_string()));
    let boundary = object(&[("coedges", Value::List(ids.collect()))]);
    context.insert(
        "loops",
        "loop".to_owned(),
        object(&[("boundary", boundary)]),
    );
    let loops = object(&[("loops", Value::List(vec![Value::text("loop")]))]);
    vec![("loops", loops)]
}

impl Copy {
    /// `sample_parameter` of uv.rs.
    pub fn sample_parameter(&self, ends: [f64; 2], n: usize) -> f64 {
        (self.sample_parameter)(ends, n)
    }

    /// `edge_points` of uv.rs, on a coedge whose one trim has these images of its
    /// first and last point: whether it is reversed, and whether it is kept. It asks
    /// for both images, and then for the one that is first after the reversal: the
    /// third evaluation shows a reversal of a trim that is not kept, too.
    pub fn direction(&self, images: [V3; 2], ends: [V3; 2]) -> (bool, bool) {
        let mut context = Context::default();
        let edge = object(&[
            ("start", vertex(&mut context, "start", ends[0])),
            ("end", vertex(&mut context, "end", ends[1])),
        ]);
        context.insert("edges", "edge".to_owned(), edge);
        let geometry = object(&[]);
        context.insert(
            "pcurves",
            "trim".to_owned(),
            object(&[("geometry", geometry)]),
        );
        let usage = object(&[
            ("pcurve", Value::text("trim")),
            ("parameter_range", numbers(&[0.0, 16.0])),
        ]);
        let coedge = object(&[
            ("edge", Value::text("edge")),
            ("pcurves", Value::List(vec![usage])),
        ]);
        let surface: SurfaceGeometry =
            from_value(object(&[("kind", Value::text("other"))])).expect("a kind");
        scene::set(Scene::new(Vec::new(), Evaluation::Ends(images)));
        let kept = (self.edge_points)(&context, &coedge, &surface);
        let scene = scene::take().expect("the scene set above");
        let first = scene
            .calls
            .get(2)
            .expect("an evaluation after the reversal");
        let reversed = first[0] != 0.0;
        if let Some((points, deviation)) = &kept {
            let walked = [points[0][0], points[16][0]];
            let expected = if reversed { [16.0, 0.0] } else { [0.0, 16.0] };
            assert!(walked == expected && *deviation == 0.0, "{points:?}");
        }
        (reversed, kept.is_some())
    }

    /// `spherical_triangle` of uv.rs on three sides, and how far it came.
    pub fn triangle(&self, centre: V3, radius: f64, sense: u32, sides: &[Side]) -> (Picked, Stage) {
        let mut context = Context::default();
        let mut face = face_of(&mut context, sides.len());
        for (index, side) in sides.iter().enumerate() {
            side_rows(&mut context, index, side);
        }
        match u8::try_from(sense) {
            Ok(FORWARD) => face.push(("sense", Value::text("forward"))),
            Ok(REVERSED) => face.push(("sense", Value::text("reversed"))),
            _ => {}
        }
        let geometry = sphere(centre, radius);
        // The evaluations are asked for side by side, each side's ends in turn.
        let evaluated = sides.iter().flat_map(|side| side.evaluated).collect();
        scene::set(Scene::new(Vec::new(), Evaluation::InOrder(evaluated)));
        recorder::reset();
        let point = (self.spherical_triangle)(&context, &Value::Object(face), &geometry);
        scene::take();
        (point, recorder::record().stage)
    }

    /// `point` of uv.rs on a sphere's face whose one ring is a triangle's three sides:
    /// `pick` tries the triangle first. The sheet has what the sides are in the chart.
    pub fn point_of_triangle(&self, sheet: &Sheet, surface: Surface, triangle: &Triangle) -> Run {
        let mut rows = rows(sheet);
        let mut samples = samples(sheet);
        let coedges = samples.chunks_exact_mut(SAMPLES);
        for (index, (side, coedge)) in triangle.sides.iter().zip(coedges).enumerate() {
            side_rows(&mut rows.context, index, side);
            // A carrier's samples go as its edge does.
            if side.reversed != 0.0 {
                coedge.reverse();
            }
        }
        rows.geometry = sphere(triangle.centre, triangle.radius);
        let mut scene = Scene::new(samples, evaluated_on(sheet, surface));
        scene.sides = triangle.sides.into();
        self.point_of(rows, scene)
    }

    /// `point_on` of faces.rs on a plane with these corners.
    pub fn point_on(&self, u_axis: V3, normal: V3, corners: &[V3]) -> Picked {
        let geometry = object(&[
            ("kind", Value::text("plane")),
            ("normal", Value::vector(normal)),
            ("u_axis", Value::vector(u_axis)),
        ]);
        self.point_on_face(geometry, corners)
    }

    fn point_on_face(&self, geometry: Value, corners: &[V3]) -> Picked {
        let mut context = Context::default();
        let mut face = face_of(&mut context, corners.len());
        for (index, corner) in corners.iter().enumerate() {
            let id = index.to_string();
            let start = vertex(&mut context, &id, *corner);
            context.insert("edges", id.clone(), object(&[("start", start)]));
            context.insert("coedges", id.clone(), object(&[("edge", Value::Text(id))]));
        }
        let surface = object(&[("geometry", geometry)]);
        context.insert("surfaces", "surface".to_owned(), surface);
        face.push(("surface", Value::text("surface")));
        (self.point_on)(&context, &Value::Object(face))
    }

    /// `cylinder_point` of faces.rs from its lows and highs to its middle height:
    /// middle angle and middle height, and how far it came.
    pub fn middle(&self, heights: &[f64], angles: &[f64]) -> (Option<[f64; 2]>, Stage) {
        recorder::reset();
        let middle = (self.middle)(heights, angles.to_vec());
        let middle = middle.map(|(angle, height)| [angle, height]);
        (middle, recorder::record().stage)
    }

    /// All of `cylinder_point`, which `point_on` calls: a face with these corners on a
    /// cylinder around the z axis.
    pub fn cylinder_point(&self, radius: f64, corners: &[V3]) -> Picked {
        let geometry = object(&[
            ("kind", Value::text("cylinder")),
            ("origin", Value::vector([0.0; 3])),
            ("axis", Value::vector([0.0, 0.0, 1.0])),
            ("ref_direction", Value::vector([1.0, 0.0, 0.0])),
            ("radius", Value::Number(radius)),
        ]);
        self.point_on_face(geometry, corners)
    }

    /// `placed` of faces.rs, with the transform's rows of four.
    pub fn placed(&self, transform: &[f64], point: V3) -> Picked {
        let rows = transform.chunks_exact(4).map(numbers).collect();
        let body = object(&[("transform", Value::List(rows))]);
        (self.placed)(&body, point)
    }
}

fn sphere(centre: V3, radius: f64) -> Value {
    object(&[
        ("kind", Value::text("sphere")),
        ("center", Value::vector(centre)),
        ("radius", Value::Number(radius)),
    ])
}

/// The rows of one side; where a sheet's rows are there already, in place of those of
/// its coedge.
fn side_rows(context: &mut Context, index: usize, side: &Side) {
    let id = index.to_string();
    let circle = object(&[
        ("kind", Value::text("circle")),
        ("first_sample", Value::Number((SAMPLES * index) as f64)),
        ("center", Value::vector(side.circle_centre)),
        ("radius", Value::Number(side.circle_radius)),
    ]);
    context.insert("curves", id.clone(), object(&[("geometry", circle)]));
    let carrier = object(&[
        ("curve", Value::text(&id)),
        ("param_range", numbers(&side.range)),
    ]);
    let edge = object(&[
        ("carrier", carrier),
        (
            "start",
            vertex(context, &format!("{id} start"), side.ends[0]),
        ),
        ("end", vertex(context, &format!("{id} end"), side.ends[1])),
    ]);
    context.insert("edges", id.clone(), edge);
    let mut coedge = vec![("edge", Value::text(&id))];
    if side.reversed != 0.0 {
        coedge.push(("sense", Value::text("reversed")));
    }
    context.insert("coedges", id, Value::Object(coedge));
}
