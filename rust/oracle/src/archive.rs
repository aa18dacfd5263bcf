//! The proved calls, linked from the archive that `rt lib` in crates/capi writes. A
//! slice goes over the C convention (rust/calls) as its pointer and then its length,
//! which counts elements.

use facepoint_calls::{facepoint_root, facepoint_round};

#[inline]
pub fn root(x: f64) -> f64 {
    // SAFETY: defined for every f64; it takes and gives one number.
    unsafe { facepoint_root(x) }
}

#[inline]
pub fn round(x: f64) -> f64 {
    // SAFETY: as above.
    unsafe { facepoint_round(x) }
}

#[cfg(facepoint_picker)]
pub use picker::{chart, image_pick, made, plane_pick};

/// The three calls on a sheet; `result` takes x, y, z, clearance and count.
#[cfg(facepoint_picker)]
mod picker {
    use facepoint_calls::{facepoint_chart, facepoint_image_pick, facepoint_plane_pick};

    use crate::call::Call;
    use crate::convention::Lent;

    // SAFETY, of all three: defined for every sheet, phase and length. Each pointer
    // is valid for the length beside it, and what is written overlaps nothing.

    pub fn chart(sheet: &[u8], phase: u32, points: &mut [f64], result: &mut [f64]) -> u32 {
        unsafe {
            facepoint_chart(
                sheet.as_ptr(),
                sheet.len(),
                phase,
                points.as_mut_ptr(),
                points.len(),
                result.as_mut_ptr(),
                result.len(),
            )
        }
    }

    pub fn image_pick(sheet: &[u8], phase: u32, images: &[f64], result: &mut [f64]) -> u32 {
        unsafe {
            facepoint_image_pick(
                sheet.as_ptr(),
                sheet.len(),
                phase,
                images.as_ptr(),
                images.len(),
                result.as_mut_ptr(),
                result.len(),
            )
        }
    }

    pub fn plane_pick(sheet: &[u8], result: &mut [f64]) -> u32 {
        unsafe {
            facepoint_plane_pick(
                sheet.as_ptr(),
                sheet.len(),
                result.as_mut_ptr(),
                result.len(),
            )
        }
    }

    /// Whichever call it is, made with what is lent for it.
    pub fn made(lent: &mut Lent) -> u32 {
        let (sheet, phase) = (lent.sheet.lent(), lent.phase);
        let (list, result) = (lent.list.lent(), lent.result.lent());
        match lent.call {
            Call::Chart => chart(sheet, phase, list, result),
            Call::ImagePick => image_pick(sheet, phase, list, result),
            Call::PlanePick => plane_pick(sheet, result),
        }
    }
}

/// The six calls after the picker.
#[cfg(facepoint_after)]
pub mod after {
    use facepoint_calls::{
        facepoint_cylinder_point, facepoint_direction, facepoint_placed, facepoint_point_on,
        facepoint_sample_parameter, facepoint_spherical_triangle,
    };

    use crate::after::convention::Lent;
    use crate::after::Call;

    /// Whichever call it is, made with what is lent for it.
    pub fn made(lent: &mut Lent) -> u32 {
        let lists: Vec<&[f64]> = lent.lists.iter_mut().map(|list| &*list.lent()).collect();
        let result = lent.result.lent();
        let (five, length) = (result.as_mut_ptr(), result.len());
        // A slice of the host's, as the convention takes it.
        macro_rules! list {
            ($call:ident, $($list:expr),+) => {
                $call($($list.as_ptr(), $list.len(),)+ five, length)
            };
        }
        // SAFETY, of all six: defined for every number and length. Each pointer is
        // valid for the length beside it, and the result overlaps nothing.
        unsafe {
            match lent.call {
                Call::SampleParameter => {
                    facepoint_sample_parameter(lists[0][0], lists[1][0], lent.whole, five, length)
                }
                Call::Direction => list!(facepoint_direction, lists[0]),
                Call::SphericalTriangle => facepoint_spherical_triangle(
                    lists[0].as_ptr(),
                    lists[0].len(),
                    lists[1][0],
                    lent.whole,
                    lists[2].as_ptr(),
                    lists[2].len(),
                    five,
                    length,
                ),
                Call::PointOn => list!(facepoint_point_on, lists[0], lists[1], lists[2]),
                Call::CylinderPoint => list!(facepoint_cylinder_point, lists[0], lists[1]),
                Call::Placed => list!(facepoint_placed, lists[0], lists[1]),
            }
        }
    }
}
