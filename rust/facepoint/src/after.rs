//! The six calls beside the picker: what is asked before a sheet is there, on a
//! sphere, and where the picker finds nothing.

use facepoint_calls::SIDE_LENGTH;

use crate::archive::{self, Five};
use crate::{Refusal, Sense, Xyz};

/// Whether a trim is to be walked the other way, and whether it is of use at all.
#[derive(Clone, Copy, Debug, PartialEq, Eq)]
pub struct Direction {
    /// The last image is nearer to the edge's start than the first.
    pub reverse: bool,
    /// Both ends, reversed if need be, lie nearer than 1e-4 to the edge's.
    pub keep: bool,
}

/// A face between three great circles of a sphere.
#[derive(Clone, Copy, Debug, PartialEq)]
pub struct Triangle {
    /// The sphere's centre.
    pub centre: Xyz,
    /// The sphere's radius.
    pub radius: f64,
    /// The sides, one behind the other.
    pub sides: [Side; 3],
}

/// A side of a [`Triangle`].
#[derive(Clone, Copy, Debug, PartialEq)]
pub struct Side {
    /// The edge's start and end, before any reversal.
    pub ends: [Xyz; 2],
    /// The side is walked against its edge.
    pub reversed: bool,
    /// The centre of the edge's circle.
    pub circle_centre: Xyz,
    /// The radius of the edge's circle.
    pub circle_radius: f64,
    /// The parameters of the edge's start and end on the circle, in radians.
    pub range: [f64; 2],
    /// The circle evaluated at these two, by the caller.
    pub evaluated: [Xyz; 2],
}

impl Side {
    /// In the order of the call's list.
    fn numbers(&self) -> [f64; SIDE_LENGTH] {
        let [a, b] = self.ends;
        let c = self.circle_centre;
        let [d, e] = self.evaluated;
        let flag = f64::from(u8::from(self.reversed));
        let [from, to] = self.range;
        [
            a[0],
            a[1],
            a[2],
            b[0],
            b[1],
            b[2],
            flag,
            c[0],
            c[1],
            c[2],
            self.circle_radius,
            from,
            to,
            d[0],
            d[1],
            d[2],
            e[0],
            e[1],
            e[2],
        ]
    }
}

/// The middle of a face on a cylinder or a cone.
#[derive(Clone, Copy, Debug, PartialEq)]
pub struct Middle {
    /// The angle, which is not reduced: it may be above a turn.
    pub angle: f64,
    /// The height.
    pub height: f64,
}

fn xyz([x, y, z, ..]: Five) -> Xyz {
    [x, y, z]
}

/// The parameter of the n-th of an edge's 17 points on its range, n from 0 to 16: the
/// first is the range's start itself and the last its end.
///
/// # Errors
///
/// Refusal 16.
///
/// ```
/// use facepoint::{sample_parameter, Coedge};
///
/// let arc = |t: f64| [3.0 + t.cos(), 4.0 + t.sin()];
/// let points: Result<Vec<[f64; 2]>, _> = (0..=16)
///     .map(|n| sample_parameter([0.0, 1.5], n).map(arc))
///     .collect();
/// let coedge = Coedge::from_points(0.0, &points?)?;
/// assert_eq!(coedge.points[0], [4.0, 4.0]);
/// # Ok::<(), Box<dyn std::error::Error>>(())
/// ```
pub fn sample_parameter(range: [f64; 2], n: u32) -> Result<f64, Refusal> {
    archive::sample_parameter(range, n).map(|[parameter, ..]| parameter)
}

/// Holds a trim against its edge: `images` are those of the trim's first and last
/// point, `ends` the edge's start and end in the direction of the ring.
///
/// # Errors
///
/// Refusal 16.
pub fn direction(images: [Xyz; 2], ends: [Xyz; 2]) -> Result<Direction, Refusal> {
    let points = [images, ends];
    let [reverse, keep, ..] = archive::direction(points.as_flattened().as_flattened())?;
    Ok(Direction {
        reverse: reverse != 0.0,
        keep: keep != 0.0,
    })
}

/// The middle of a triangle on a sphere, on the side that the face's sense says.
///
/// # Errors
///
/// Refusals 16 to 19.
pub fn spherical_triangle(triangle: &Triangle, sense: Sense) -> Result<Xyz, Refusal> {
    let sides = triangle.sides.map(|side| side.numbers());
    let (centre, radius) = (&triangle.centre, triangle.radius);
    let sense = u32::from(sense.code());
    archive::spherical_triangle(centre, radius, sense, sides.as_flattened()).map(xyz)
}

/// The vertex fallback: a point inside a plane face, from its corners in their order.
/// It is the middle of the first corner that serves with the one before and the one
/// after it.
///
/// # Errors
///
/// Refusals 16, 20 and 21.
pub fn point_on(u_axis: Xyz, normal: Xyz, corners: &[Xyz]) -> Result<Xyz, Refusal> {
    archive::point_on(&u_axis, &normal, corners.as_flattened()).map(xyz)
}

/// The round fallback: the middle of a face on a cylinder or a cone, from the heights
/// and the angles of its corners.
///
/// # Errors
///
/// Refusals 16, 22 and 23.
pub fn cylinder_point(heights: &[f64], angles: &[f64]) -> Result<Middle, Refusal> {
    let [angle, height, ..] = archive::cylinder_point(heights, angles)?;
    Ok(Middle { angle, height })
}

/// A point moved by a body's transform: three rows, the last number of each the
/// translation.
///
/// # Errors
///
/// Refusals 16 and 24.
pub fn placed(transform: &[[f64; 4]; 3], point: Xyz) -> Result<Xyz, Refusal> {
    archive::placed(transform.as_flattened(), &point).map(xyz)
}
