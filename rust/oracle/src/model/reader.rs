//! "Sheet (added)" of document 01: the bytes, and checks 1 to 7.

use super::fault::Fault;
use super::Model;
use crate::sheet::Uv;

/// A coedge takes its deviation and 17 points, 8 bytes a number.
const COEDGE_BYTES: usize = 280;
const PLANE_BYTES: usize = 72;
/// 2^20, the greatest magnitude of a chart coordinate or of the origin.
const FARTHEST: f64 = 1_048_576.0;

#[derive(Clone, Copy)]
pub struct Plane {
    pub origin: [f64; 3],
    pub u_axis: [f64; 3],
    pub normal: [f64; 3],
}

impl Plane {
    /// What a planted fault takes where a sheet has none.
    pub const FLAT: Plane = Plane {
        origin: [0.0, 0.0, 0.0],
        u_axis: [1.0, 0.0, 0.0],
        normal: [0.0, 0.0, 1.0],
    };
}

pub struct Coedge {
    pub deviation: f64,
    pub points: Vec<Uv>,
}

pub type Ring = Vec<Coedge>;

/// What a sheet says.
pub struct Layout {
    pub kind: u8,
    pub sense: u8,
    /// Kind 0 alone has one.
    pub plane: Option<Plane>,
    pub rings: Vec<Ring>,
}

impl Layout {
    pub fn point_count(&self) -> usize {
        let coedges = self.rings.iter().flatten();
        coedges.map(|coedge| coedge.points.len()).sum()
    }
}

impl Model {
    /// Checks 1 to 7 in table order, each over the whole sheet.
    pub(super) fn read(&self, sheet: &[u8]) -> Result<Layout, u32> {
        if sheet.len() < 8 || length_field(sheet) != sheet.len() - 4 {
            return Err(1);
        }
        let [version, kind, sense, ring_count] = [sheet[4], sheet[5], sheet[6], sheet[7]];
        if version != 1 {
            return Err(2);
        }
        if kind > 6 || sense > 2 {
            return Err(3);
        }
        if ring_count == 0 || ring_count > 16 {
            return Err(4);
        }
        let (plane, blocks) = split(&sheet[8..], kind, ring_count).ok_or(5u32)?;
        check_counts(&blocks)?;
        let layout = Layout {
            kind,
            sense,
            plane: plane.map(|part| self.plane(part)),
            rings: blocks.iter().map(|block| self.ring(block)).collect(),
        };
        if !numbers_pass(&layout) {
            return Err(7);
        }
        Ok(layout)
    }

    fn plane(&self, part: &[u8]) -> Plane {
        let x: Vec<f64> = self.numbers(part).collect();
        Plane {
            origin: [x[0], x[1], x[2]],
            u_axis: [x[3], x[4], x[5]],
            normal: [x[6], x[7], x[8]],
        }
    }

    fn ring(&self, block: &[u8]) -> Ring {
        let coedges = block[1..].chunks_exact(COEDGE_BYTES);
        coedges.map(|coedge| self.coedge(coedge)).collect()
    }

    fn coedge(&self, part: &[u8]) -> Coedge {
        let numbers: Vec<f64> = self.numbers(part).collect();
        let points = numbers[1..].chunks_exact(2);
        Coedge {
            deviation: numbers[0],
            points: points.map(|p| [p[0], p[1]]).collect(),
        }
    }

    /// Big-endian; a −0 is read as +0.
    fn numbers<'a>(&self, part: &'a [u8]) -> impl Iterator<Item = f64> + 'a {
        let kept = self.is(Fault::NegativeZeroKept);
        part.chunks_exact(8).map(move |bytes| {
            let mut eight = [0; 8];
            eight.copy_from_slice(bytes);
            let x = f64::from_be_bytes(eight);
            if x == 0.0 && !kept {
                0.0
            } else {
                x
            }
        })
    }
}

fn length_field(sheet: &[u8]) -> usize {
    let field = sheet[..4].iter();
    field.fold(0, |value, byte| 256 * value + usize::from(*byte))
}

/// The plane's part, if there is one, and the ring blocks.
type Parts<'a> = (Option<&'a [u8]>, Vec<&'a [u8]>);

/// Check 5: the parts, each where it stands; none where they overrun the end or
/// leave bytes over.
fn split(body: &[u8], kind: u8, ring_count: u8) -> Option<Parts<'_>> {
    let (plane, mut rest) = if kind == 0 {
        let (plane, rest) = body.split_at_checked(PLANE_BYTES)?;
        (Some(plane), rest)
    } else {
        (None, body)
    };
    let mut blocks = Vec::new();
    for _ in 0..ring_count {
        let coedges = usize::from(*rest.first()?);
        let (block, after) = rest.split_at_checked(1 + COEDGE_BYTES * coedges)?;
        blocks.push(block);
        rest = after;
    }
    rest.is_empty().then_some((plane, blocks))
}

/// Check 6: a ring with 0 coedges, or over 128 in total.
fn check_counts(blocks: &[&[u8]]) -> Result<(), u32> {
    let counts = || blocks.iter().map(|block| usize::from(block[0]));
    if counts().any(|count| count == 0) || counts().sum::<usize>() > 128 {
        return Err(6);
    }
    Ok(())
}

/// Check 7: every number of the sheet.
fn numbers_pass(layout: &Layout) -> bool {
    let plane = layout.plane.iter().all(|plane| {
        within(&plane.origin, FARTHEST) && within(&plane.u_axis, 2.0) && within(&plane.normal, 2.0)
    });
    let coedge = |coedge: &Coedge| {
        // A NaN is not below 0.002 either.
        let deviation = coedge.deviation >= 0.0 && coedge.deviation < 0.002;
        deviation && coedge.points.iter().all(|p| within(p, FARTHEST))
    };
    plane && layout.rings.iter().flatten().all(coedge)
}

fn within(numbers: &[f64], limit: f64) -> bool {
    numbers.iter().all(|x| x.is_finite() && x.abs() <= limit)
}
