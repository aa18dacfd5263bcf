//! The proved calls on slices, and all that is unsafe in this crate. Over the C
//! convention (rust/calls) a list goes as the pointer to its first element and the
//! number of its elements.

use facepoint_calls::{
    facepoint_chart, facepoint_cylinder_point, facepoint_direction, facepoint_image_pick,
    facepoint_placed, facepoint_plane_pick, facepoint_point_on, facepoint_sample_parameter,
    facepoint_spherical_triangle, RESULT_LENGTH,
};

use crate::Refusal;

/// The numbers beside a status: x, y, z, clearance, count.
pub(crate) type Five = [f64; RESULT_LENGTH];

/// Lends a call a result list of five of its own, and tells an answer from a refusal.
///
/// The proofs leave no status but 0 and the numbers of the table; another one comes
/// from an archive that is not this repository's, and there is no going on with it.
fn answered(call: impl FnOnce(*mut f64, usize) -> u32) -> Result<Five, Refusal> {
    let mut result: Five = [0.0; RESULT_LENGTH];
    match call(result.as_mut_ptr(), result.len()) {
        0 => Ok(result),
        status => Err(Refusal::from_number(status)
            .unwrap_or_else(|| panic!("status {status}: the linked archive is another one"))),
    }
}

// SAFETY, of all nine: a call is defined for every number and every length, keeps no
// pointer, and touches nothing but its lists. Each pointer comes from a slice, so it
// is not null and is valid for the length beside it; what is written to is borrowed
// for writing, so it overlaps no other list. The stack is the caller's to have.

pub(crate) fn chart(sheet: &[u8], phase: u32, points: &mut [f64]) -> Result<Five, Refusal> {
    answered(|result, length| unsafe {
        facepoint_chart(
            sheet.as_ptr(),
            sheet.len(),
            phase,
            points.as_mut_ptr(),
            points.len(),
            result,
            length,
        )
    })
}

pub(crate) fn image_pick(sheet: &[u8], phase: u32, images: &[f64]) -> Result<Five, Refusal> {
    answered(|result, length| unsafe {
        facepoint_image_pick(
            sheet.as_ptr(),
            sheet.len(),
            phase,
            images.as_ptr(),
            images.len(),
            result,
            length,
        )
    })
}

pub(crate) fn plane_pick(sheet: &[u8]) -> Result<Five, Refusal> {
    answered(|result, length| unsafe {
        facepoint_plane_pick(sheet.as_ptr(), sheet.len(), result, length)
    })
}

pub(crate) fn sample_parameter([a, b]: [f64; 2], n: u32) -> Result<Five, Refusal> {
    answered(|result, length| unsafe { facepoint_sample_parameter(a, b, n, result, length) })
}

pub(crate) fn direction(points: &[f64]) -> Result<Five, Refusal> {
    answered(|result, length| unsafe {
        facepoint_direction(points.as_ptr(), points.len(), result, length)
    })
}

pub(crate) fn spherical_triangle(
    centre: &[f64],
    radius: f64,
    sense: u32,
    sides: &[f64],
) -> Result<Five, Refusal> {
    answered(|result, length| unsafe {
        facepoint_spherical_triangle(
            centre.as_ptr(),
            centre.len(),
            radius,
            sense,
            sides.as_ptr(),
            sides.len(),
            result,
            length,
        )
    })
}

pub(crate) fn point_on(u_axis: &[f64], normal: &[f64], corners: &[f64]) -> Result<Five, Refusal> {
    answered(|result, length| unsafe {
        facepoint_point_on(
            u_axis.as_ptr(),
            u_axis.len(),
            normal.as_ptr(),
            normal.len(),
            corners.as_ptr(),
            corners.len(),
            result,
            length,
        )
    })
}

pub(crate) fn cylinder_point(heights: &[f64], angles: &[f64]) -> Result<Five, Refusal> {
    answered(|result, length| unsafe {
        facepoint_cylinder_point(
            heights.as_ptr(),
            heights.len(),
            angles.as_ptr(),
            angles.len(),
            result,
            length,
        )
    })
}

pub(crate) fn placed(transform: &[f64], point: &[f64]) -> Result<Five, Refusal> {
    answered(|result, length| unsafe {
        facepoint_placed(
            transform.as_ptr(),
            transform.len(),
            point.as_ptr(),
            point.len(),
            result,
            length,
        )
    })
}
