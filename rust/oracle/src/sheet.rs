//! The builder of sheets: document 01's "Sheet (added)", from a face's trims to
//! bytes and back. It writes whatever it is given; the checks are the reader's.

use crate::big_endian::take;

/// Points of a coedge.
pub const SAMPLES: usize = 17;

/// A point of the chart: u, v.
pub type Uv = [f64; 2];

/// The kinds of a surface, by their number on a sheet.
pub const PLANE: u8 = 0;
pub const CYLINDER: u8 = 1;
pub const CONE: u8 = 2;
pub const SPHERE: u8 = 3;
pub const TORUS: u8 = 4;
pub const NURBS: u8 = 5;
pub const OTHER: u8 = 6;

/// The senses of a face, by their number on a sheet.
pub const ABSENT: u8 = 0;
pub const FORWARD: u8 = 1;
pub const REVERSED: u8 = 2;

#[derive(Clone, Copy, Debug, PartialEq)]
pub struct Plane {
    pub origin: [f64; 3],
    pub u_axis: [f64; 3],
    pub normal: [f64; 3],
}

impl Plane {
    /// The plane of document 01's plates: u and v are x and y.
    pub const FLAT: Plane = Plane {
        origin: [0.0, 0.0, 0.0],
        u_axis: [1.0, 0.0, 0.0],
        normal: [0.0, 0.0, 1.0],
    };

    /// The plane stand-in: (origin + u × u axis) + v × (normal cross u axis).
    pub fn point(&self, u: f64, v: f64) -> [f64; 3] {
        let (n, a) = (self.normal, self.u_axis);
        let v_axis = [
            n[1] * a[2] - n[2] * a[1],
            n[2] * a[0] - n[0] * a[2],
            n[0] * a[1] - n[1] * a[0],
        ];
        [0, 1, 2].map(|k| (self.origin[k] + u * a[k]) + v * v_axis[k])
    }
}

#[derive(Clone, Debug, PartialEq)]
pub struct Coedge {
    pub deviation: f64,
    pub points: [Uv; SAMPLES],
}

impl Coedge {
    /// A straight side, evenly sampled, with its two ends as they are.
    pub fn line(from: Uv, to: Uv) -> Coedge {
        let mut points = [from; SAMPLES];
        for (n, point) in points.iter_mut().enumerate() {
            let part = n as f64 / 16.0;
            *point = [0, 1].map(|axis| from[axis] + (to[axis] - from[axis]) * part);
        }
        points[SAMPLES - 1] = to;
        Coedge {
            deviation: 0.0,
            points,
        }
    }

    fn read(rest: &mut &[u8]) -> Option<Coedge> {
        let [deviation] = numbers(rest)?;
        let mut points = [[0.0; 2]; SAMPLES];
        for point in &mut points {
            *point = numbers(rest)?;
        }
        Some(Coedge { deviation, points })
    }
}

/// A closed chain of coedges.
#[derive(Clone, Debug, Default, PartialEq)]
pub struct Ring(pub Vec<Coedge>);

impl Ring {
    /// A coedge for each side of the polygon through `corners`.
    pub fn polygon(corners: &[Uv]) -> Ring {
        let next = corners.iter().cycle().skip(1);
        let sides = corners.iter().zip(next);
        Ring(sides.map(|(from, to)| Coedge::line(*from, *to)).collect())
    }

    /// `coedges` coedges along the curve that `at` gives for 0 to 1.
    pub fn curve(coedges: usize, at: impl Fn(f64) -> Uv) -> Ring {
        let total = (16 * coedges) as f64;
        let coedge = |k: usize| Coedge {
            deviation: 0.0,
            points: std::array::from_fn(|n| at((16 * k + n) as f64 / total)),
        };
        Ring((0..coedges).map(coedge).collect())
    }

    /// A square around `centre` in so many coedges, from its lower left corner.
    pub fn square(coedges: usize, centre: Uv, half: f64) -> Ring {
        Ring::curve(coedges, |part| {
            let way = 4.0 * part.fract();
            let x = 2.0 * way.fract() - 1.0;
            let [u, v] = [[x, -1.0], [1.0, x], [-x, 1.0], [-1.0, -x]][way as usize];
            [centre[0] + half * u, centre[1] + half * v]
        })
    }

    pub fn rectangle(low: Uv, high: Uv) -> Ring {
        Ring::polygon(&[low, [high[0], low[1]], high, [low[0], high[1]]])
    }

    fn read(rest: &mut &[u8]) -> Option<Ring> {
        let [coedges] = take(rest)?;
        let coedges = (0..coedges).map(|_| Coedge::read(rest));
        coedges.collect::<Option<_>>().map(Ring)
    }

    /// The same trim walked the other way.
    pub fn reversed(mut self) -> Ring {
        self.0.reverse();
        for coedge in &mut self.0 {
            coedge.points.reverse();
        }
        self
    }

    /// Every point of the ring, for changing.
    pub fn points_mut(&mut self) -> impl Iterator<Item = &mut Uv> {
        self.0.iter_mut().flat_map(|coedge| &mut coedge.points)
    }
}

#[derive(Clone, Debug, PartialEq)]
pub struct Sheet {
    pub kind: u8,
    pub sense: u8,
    /// Written for kind 0 alone.
    pub plane: Plane,
    pub rings: Vec<Ring>,
}

impl Sheet {
    pub fn new(kind: u8, sense: u8, rings: Vec<Ring>) -> Sheet {
        Sheet {
            kind,
            sense,
            plane: Plane::FLAT,
            rings,
        }
    }

    /// A forward face of the flat plane.
    pub fn flat(rings: Vec<Ring>) -> Sheet {
        Sheet::new(PLANE, FORWARD, rings)
    }

    pub fn coedges(&self) -> impl Iterator<Item = &Coedge> {
        self.rings.iter().flat_map(|ring| &ring.0)
    }

    pub fn points_mut(&mut self) -> impl Iterator<Item = &mut Uv> {
        self.rings.iter_mut().flat_map(Ring::points_mut)
    }

    /// The number of points of all rings.
    pub fn point_count(&self) -> usize {
        SAMPLES * self.coedges().count()
    }

    pub fn set_deviation(&mut self, deviation: f64) {
        let coedges = self.rings.iter_mut().flat_map(|ring| &mut ring.0);
        coedges.for_each(|coedge| coedge.deviation = deviation);
    }

    /// Where ring `index` begins in the sheet's bytes.
    pub fn block_start(&self, index: usize) -> usize {
        let plane = if self.kind == PLANE { 72 } else { 0 };
        let before = self.rings[..index].iter().map(|r| 1 + 280 * r.0.len());
        8 + plane + before.sum::<usize>()
    }

    /// The sheet that writes these bytes, if there is one: the layout reads. Codes
    /// and numbers are taken as they are.
    pub fn read(bytes: &[u8]) -> Option<Sheet> {
        let mut rest = bytes;
        let [.., kind, sense, rings] = take::<8>(&mut rest)?;
        let mut sheet = Sheet::new(kind, sense, Vec::new());
        if kind == PLANE {
            sheet.plane = Plane {
                origin: numbers(&mut rest)?,
                u_axis: numbers(&mut rest)?,
                normal: numbers(&mut rest)?,
            };
        }
        for _ in 0..rings {
            sheet.rings.push(Ring::read(&mut rest)?);
        }
        (sheet.bytes() == bytes).then_some(sheet)
    }

    pub fn bytes(&self) -> Vec<u8> {
        let mut bytes = vec![0; 4];
        bytes.extend([1, self.kind, self.sense, self.rings.len() as u8]);
        let number = |bytes: &mut Vec<u8>, x: f64| bytes.extend(x.to_be_bytes());
        if self.kind == PLANE {
            let plane = [self.plane.origin, self.plane.u_axis, self.plane.normal];
            for x in plane.into_iter().flatten() {
                number(&mut bytes, x);
            }
        }
        for ring in &self.rings {
            bytes.push(ring.0.len() as u8);
            for coedge in &ring.0 {
                number(&mut bytes, coedge.deviation);
                for x in coedge.points.into_iter().flatten() {
                    number(&mut bytes, x);
                }
            }
        }
        set_length(&mut bytes);
        bytes
    }
}

fn numbers<const N: usize>(rest: &mut &[u8]) -> Option<[f64; N]> {
    let mut numbers = [0.0; N];
    for number in &mut numbers {
        *number = f64::from_be_bytes(take(rest)?);
    }
    Some(numbers)
}

/// Makes the length field say how many bytes follow it.
pub fn set_length(bytes: &mut [u8]) {
    let length = (bytes.len() - 4) as u32;
    bytes[..4].copy_from_slice(&length.to_be_bytes());
}
