//! Document 01's sheet: the bytes that the picker reads, and the trims that they are
//! written from.

use std::error::Error;
use std::fmt;

use crate::file::FileError;
use crate::{Uv, Xyz};

/// The points of a coedge.
pub const SAMPLES: usize = 17;

/// The coedges of the largest sheet that the picker accepts.
const MOST_COEDGES: usize = 128;

/// Bytes of the head, of a plane's numbers and of a coedge.
const HEAD: usize = 8;
const PLANE: usize = 72;
const COEDGE: usize = 280;

/// Codes that stand on a sheet.
const VERSION: u8 = 1;
const PLANE_CODE: u8 = 0;

/// A plane's place in space: the point of u and v is
/// (origin + u × u axis) + v × (normal cross u axis).
#[derive(Clone, Copy, Debug, PartialEq)]
pub struct Plane {
    /// The point of u = 0 and v = 0.
    pub origin: Xyz,
    /// The direction in which u grows.
    pub u_axis: Xyz,
    /// The direction across the plane.
    pub normal: Xyz,
}

impl Plane {
    /// The plane on which u and v are x and y.
    pub const XY: Plane = Plane {
        origin: [0.0, 0.0, 0.0],
        u_axis: [1.0, 0.0, 0.0],
        normal: [0.0, 0.0, 1.0],
    };
}

/// The kind of a face's surface. It says which chart coordinates are angles, and how
/// the picker tells inside from outside.
#[derive(Clone, Copy, Debug, PartialEq)]
pub enum Kind {
    /// A plane, whose numbers go on the sheet.
    Plane(Plane),
    /// A cylinder: u is an angle.
    Cylinder,
    /// A cone: u is an angle.
    Cone,
    /// A sphere: u is the longitude, v the latitude.
    Sphere,
    /// A torus: u and v are angles, v the one around the tube.
    Torus,
    /// A NURBS surface.
    Nurbs,
    /// Any other surface.
    Other,
}

impl Kind {
    /// The kind's number on a sheet.
    pub const fn code(self) -> u8 {
        match self {
            Kind::Plane(_) => PLANE_CODE,
            Kind::Cylinder => 1,
            Kind::Cone => 2,
            Kind::Sphere => 3,
            Kind::Torus => 4,
            Kind::Nurbs => 5,
            Kind::Other => 6,
        }
    }
}

/// Which way a face looks, against its surface's normal.
#[derive(Clone, Copy, Debug, PartialEq, Eq, Hash)]
pub enum Sense {
    /// The model does not say.
    Absent,
    /// As the surface's normal.
    Forward,
    /// Against the surface's normal.
    Reversed,
}

impl Sense {
    /// The sense's number on a sheet.
    pub const fn code(self) -> u8 {
        match self {
            Sense::Absent => 0,
            Sense::Forward => 1,
            Sense::Reversed => 2,
        }
    }

    pub(crate) fn of_code(code: u8) -> Option<Sense> {
        match code {
            0 => Some(Sense::Absent),
            1 => Some(Sense::Forward),
            2 => Some(Sense::Reversed),
            _ => None,
        }
    }
}

/// One edge of a ring in the face's chart, in the direction in which the ring goes.
#[derive(Clone, Copy, Debug, PartialEq)]
pub struct Coedge {
    /// How far the points may be off, in space: the greatest residual of finding u and
    /// v for the edge's points, and 0 where the edge has a curve in u and v. A pick
    /// keeps clear of the trims by more than eight times the greatest of a sheet.
    pub deviation: f64,
    /// Points of the edge, its two ends among them. [`sample_parameter`] gives the
    /// parameters at which to take them.
    ///
    /// [`sample_parameter`]: crate::sample_parameter
    pub points: [Uv; SAMPLES],
}

impl Coedge {
    /// A coedge through these points.
    ///
    /// # Errors
    ///
    /// Where there are not [`SAMPLES`] of them.
    pub fn from_points(deviation: f64, points: &[Uv]) -> Result<Coedge, BuildError> {
        match points.try_into() {
            Ok(points) => Ok(Coedge { deviation, points }),
            Err(_) => Err(BuildError::PointCount(points.len())),
        }
    }

    /// A straight side, evenly sampled, without deviation; its two ends are as given.
    pub fn line(from: Uv, to: Uv) -> Coedge {
        let mut points = [from; SAMPLES];
        for (n, point) in points.iter_mut().enumerate() {
            let part = n as f64 / 16.0;
            *point = [0, 1].map(|axis| from[axis] + (to[axis] - from[axis]) * part);
        }
        points[SAMPLES - 1] = to;
        Coedge {
            deviation: 0.0,
            points,
        }
    }

    /// The same edge walked the other way.
    #[must_use]
    pub fn reversed(mut self) -> Coedge {
        self.points.reverse();
        self
    }
}

/// A closed chain of coedges: an outer trim or a hole. Which of the two it is, and
/// which way it is walked, plays no part, but where rings go around a torus: there
/// the face's sense says on which side of them it lies.
#[derive(Clone, Debug, Default, PartialEq)]
pub struct Ring {
    /// Each begins where the one before it ends, the first where the last ends.
    pub coedges: Vec<Coedge>,
}

impl Ring {
    /// The polygon through these corners, a straight coedge for each side.
    pub fn polygon(corners: &[Uv]) -> Ring {
        let next = corners.iter().cycle().skip(1);
        let sides = corners.iter().zip(next);
        sides.map(|(from, to)| Coedge::line(*from, *to)).collect()
    }

    /// The same ring walked the other way.
    #[must_use]
    pub fn reversed(self) -> Ring {
        let coedges = self.coedges.into_iter().rev();
        coedges.map(Coedge::reversed).collect()
    }
}

impl From<Vec<Coedge>> for Ring {
    fn from(coedges: Vec<Coedge>) -> Ring {
        Ring { coedges }
    }
}

impl FromIterator<Coedge> for Ring {
    fn from_iter<I: IntoIterator<Item = Coedge>>(coedges: I) -> Ring {
        Ring {
            coedges: coedges.into_iter().collect(),
        }
    }
}

/// A trimmed face, of which [`Face::sheet`] writes the sheet.
///
/// ```
/// use facepoint::{plane_pick, Face, Kind, Plane, Ring, Sense};
///
/// let outside = Ring::polygon(&[[0.0, 0.0], [1.0, 0.0], [1.0, 1.0], [0.0, 1.0]]);
/// let face = Face::new(Kind::Plane(Plane::XY), Sense::Forward).ring(outside);
/// let pick = plane_pick(&face.sheet()?)?;
/// assert_eq!(pick.point, [0.5, 0.5, 0.0]);
/// # Ok::<(), Box<dyn std::error::Error>>(())
/// ```
#[derive(Clone, Debug, PartialEq)]
pub struct Face {
    /// The kind of the surface.
    pub kind: Kind,
    /// The face's sense.
    pub sense: Sense,
    /// The trims, in any order: another order gives the same answers, bit for bit.
    pub rings: Vec<Ring>,
}

impl Face {
    /// A face without rings so far.
    pub fn new(kind: Kind, sense: Sense) -> Face {
        Face {
            kind,
            sense,
            rings: Vec::new(),
        }
    }

    /// The face with one more ring.
    #[must_use]
    pub fn ring(mut self, ring: impl Into<Ring>) -> Face {
        self.rings.push(ring.into());
        self
    }

    /// Writes the sheet.
    ///
    /// Every number goes on it as it is, be it a −0, a NaN or beyond the limits: what a
    /// sheet is worth is the picker's to say.
    ///
    /// # Errors
    ///
    /// Where a count does not fit its byte: over 255 rings, or over 255 coedges in one.
    pub fn sheet(&self) -> Result<Sheet, BuildError> {
        let rings = self.rings.len();
        let count = u8::try_from(rings).map_err(|_| BuildError::TooManyRings(rings))?;
        let mut body = vec![VERSION, self.kind.code(), self.sense.code(), count];
        if let Kind::Plane(plane) = self.kind {
            put(
                &mut body,
                [plane.origin, plane.u_axis, plane.normal].as_flattened(),
            );
        }
        for (ring, Ring { coedges }) in self.rings.iter().enumerate() {
            let too_many = |_| BuildError::TooManyCoedges {
                ring,
                coedges: coedges.len(),
            };
            body.push(u8::try_from(coedges.len()).map_err(too_many)?);
            for coedge in coedges {
                put(&mut body, &[coedge.deviation]);
                put(&mut body, coedge.points.as_flattened());
            }
        }
        // 255 rings of 255 coedges are some 18 million bytes.
        let length = u32::try_from(body.len()).expect("counts of a byte each fit");
        let bytes = [&length.to_be_bytes()[..], &body].concat();
        Ok(Sheet { bytes })
    }
}

fn put(bytes: &mut Vec<u8>, numbers: &[f64]) {
    bytes.extend(numbers.iter().flat_map(|x| x.to_be_bytes()));
}

/// Why a face or a coedge cannot be written.
#[derive(Clone, Copy, Debug, PartialEq, Eq)]
#[non_exhaustive]
pub enum BuildError {
    /// So many points were given for a coedge, which has [`SAMPLES`].
    PointCount(usize),
    /// So many rings, where their number is one byte.
    TooManyRings(usize),
    /// So many coedges in a ring, where their number is one byte.
    TooManyCoedges {
        /// The ring's place among the face's rings, from 0.
        ring: usize,
        /// Its coedges.
        coedges: usize,
    },
}

impl fmt::Display for BuildError {
    fn fmt(&self, f: &mut fmt::Formatter) -> fmt::Result {
        match self {
            BuildError::PointCount(points) => {
                write!(f, "a coedge has {SAMPLES} points, and {points} were given")
            }
            BuildError::TooManyRings(rings) => {
                write!(f, "a sheet has at most 255 rings, and the face has {rings}")
            }
            BuildError::TooManyCoedges { ring, coedges } => write!(
                f,
                "a ring has at most 255 coedges on a sheet, and ring {ring} has {coedges}"
            ),
        }
    }
}

impl Error for BuildError {}

/// A sheet: the bytes of one face, as the picker reads them. Any bytes will do; where
/// they are no sheet every call says so, by a refusal from 1 to 7.
#[derive(Clone, PartialEq, Eq, Hash)]
pub struct Sheet {
    bytes: Vec<u8>,
}

impl Sheet {
    /// The bytes of a sheet that was written elsewhere, unchecked.
    pub fn from_bytes(bytes: impl Into<Vec<u8>>) -> Sheet {
        Sheet {
            bytes: bytes.into(),
        }
    }

    /// Reads a sheet from a file that holds nothing else.
    ///
    /// # Errors
    ///
    /// Where the file cannot be read, ends before its length field says or goes on
    /// behind, or has more than [`LONGEST_FILE`](crate::LONGEST_FILE) bytes. All else
    /// is the picker's to judge.
    pub fn from_file(path: impl AsRef<std::path::Path>) -> Result<Sheet, FileError> {
        crate::file::read(path.as_ref()).map(Sheet::from_bytes)
    }

    /// The sheet's bytes.
    pub fn bytes(&self) -> &[u8] {
        &self.bytes
    }

    /// The face that [`Face::sheet`] writes this sheet from; none where there is no
    /// such face. Numbers are taken as they are.
    pub fn face(&self) -> Option<Face> {
        let mut rest = &self.bytes[..];
        let [a, b, c, d, VERSION, kind, sense, rings] = take::<HEAD>(&mut rest)? else {
            return None;
        };
        let length = usize::try_from(u32::from_be_bytes([a, b, c, d])).ok()?;
        if self.bytes.len() - 4 != length {
            return None;
        }
        let kind = match kind {
            PLANE_CODE => Kind::Plane(Plane {
                origin: numbers(&mut rest)?,
                u_axis: numbers(&mut rest)?,
                normal: numbers(&mut rest)?,
            }),
            1 => Kind::Cylinder,
            2 => Kind::Cone,
            3 => Kind::Sphere,
            4 => Kind::Torus,
            5 => Kind::Nurbs,
            6 => Kind::Other,
            _ => return None,
        };
        let sense = Sense::of_code(sense)?;
        let rings = (0..rings).map(|_| read_ring(&mut rest));
        let rings = rings.collect::<Option<_>>()?;
        rest.is_empty().then_some(Face { kind, sense, rings })
    }

    /// The byte of the kind, where there is one.
    pub(crate) fn kind_code(&self) -> Option<u8> {
        self.bytes.get(5).copied()
    }

    /// The sense, where its byte has one.
    pub(crate) fn sense(&self) -> Option<Sense> {
        Sense::of_code(*self.bytes.get(6)?)
    }

    /// The number of points, where the layout reads: what is neither head, plane nor a
    /// ring's count is coedges. Of other bytes, which a call refuses before it looks at
    /// any list, it is some number that is no greater than the largest sheet's.
    pub(crate) fn point_count(&self) -> usize {
        let rings = self.bytes.get(7).copied().unwrap_or(0);
        let plane = if self.kind_code() == Some(PLANE_CODE) {
            PLANE
        } else {
            0
        };
        let before = HEAD + plane + usize::from(rings);
        let coedges = self.bytes.len().saturating_sub(before) / COEDGE;
        SAMPLES * coedges.min(MOST_COEDGES)
    }
}

impl AsRef<[u8]> for Sheet {
    fn as_ref(&self) -> &[u8] {
        &self.bytes
    }
}

/// The bytes themselves would be pages.
impl fmt::Debug for Sheet {
    fn fmt(&self, f: &mut fmt::Formatter) -> fmt::Result {
        let head = &self.bytes[..self.bytes.len().min(HEAD)];
        f.debug_struct("Sheet")
            .field("length", &self.bytes.len())
            .field("head", &head)
            .finish_non_exhaustive()
    }
}

fn read_ring(rest: &mut &[u8]) -> Option<Ring> {
    let [coedges] = take(rest)?;
    let coedge = |_| {
        let [deviation] = numbers(rest)?;
        let mut points = [[0.0; 2]; SAMPLES];
        for point in &mut points {
            *point = numbers(rest)?;
        }
        Some(Coedge { deviation, points })
    };
    (0..coedges).map(coedge).collect()
}

fn take<const N: usize>(rest: &mut &[u8]) -> Option<[u8; N]> {
    let (first, behind) = rest.split_first_chunk()?;
    *rest = behind;
    Some(*first)
}

fn numbers<const N: usize>(rest: &mut &[u8]) -> Option<[f64; N]> {
    let mut numbers = [0.0; N];
    for number in &mut numbers {
        *number = f64::from_be_bytes(take(rest)?);
    }
    Some(numbers)
}
