//! The exported calls of facepoint, declared once for all that is Rust here. It is
//! include/facepoint.h in Rust's words, and a test holds the two against each other;
//! what a call answers, and when it refuses, stands there.
//!
//! The build script links the archive where there is one and tells the build scripts
//! of its dependents which one that is (`DEP_FACEPOINT_ARCHIVE`); where it has linked
//! none, these are declarations that nobody may use.
//!
//! # Safety
//!
//! Of all calls: they are defined for every number and every length, keep no pointer
//! and touch nothing but their lists. A list goes as a pointer to its first element
//! and the number of its elements. The pointer is not null, even where the number is
//! 0, and is valid for so many elements; `points` of the chart and `result` are
//! written to and overlap no other list. There have to be [`STACK`] bytes of stack.

#![no_std]

/// The numbers of a result: x, y, z, clearance, count.
pub const RESULT_LENGTH: usize = 5;

/// The numbers of [`facepoint_direction`]'s list.
pub const POINTS_LENGTH: usize = 12;

/// The numbers of one side of a triangle.
pub const SIDE_LENGTH: usize = 19;

/// The numbers of a transform.
pub const TRANSFORM_LENGTH: usize = 12;

/// The bytes of stack that a call may take, with a margin; whatever it is given, it
/// takes no more. On a thread that has less left at the call the process dies, and
/// that is the host's fault: no call can test it.
pub const STACK: usize = 256 * 1024;

extern "C" {
    /// The chart of a sheet at phase 0 or 1.
    pub fn facepoint_chart(
        sheet: *const u8,
        sheet_length: usize,
        phase: u32,
        points: *mut f64,
        points_length: usize,
        result: *mut f64,
        result_length: usize,
    ) -> u32;

    /// The pick on a surface that the caller evaluates.
    pub fn facepoint_image_pick(
        sheet: *const u8,
        sheet_length: usize,
        phase: u32,
        images: *const f64,
        images_length: usize,
        result: *mut f64,
        result_length: usize,
    ) -> u32;

    /// The pick on a plane, whose numbers are on the sheet.
    pub fn facepoint_plane_pick(
        sheet: *const u8,
        sheet_length: usize,
        result: *mut f64,
        result_length: usize,
    ) -> u32;

    /// The n-th of an edge's samples, n from 0 to 16, on the range from a to b.
    pub fn facepoint_sample_parameter(
        a: f64,
        b: f64,
        n: u32,
        result: *mut f64,
        result_length: usize,
    ) -> u32;

    /// Whether a trim is to be reversed, and whether it is to be kept.
    pub fn facepoint_direction(
        points: *const f64,
        points_length: usize,
        result: *mut f64,
        result_length: usize,
    ) -> u32;

    /// The middle of a triangle of great circles on a sphere.
    pub fn facepoint_spherical_triangle(
        centre: *const f64,
        centre_length: usize,
        radius: f64,
        sense: u32,
        sides: *const f64,
        sides_length: usize,
        result: *mut f64,
        result_length: usize,
    ) -> u32;

    /// The vertex fallback: a point inside a plane face, from its corners.
    pub fn facepoint_point_on(
        u_axis: *const f64,
        u_axis_length: usize,
        normal: *const f64,
        normal_length: usize,
        corners: *const f64,
        corners_length: usize,
        result: *mut f64,
        result_length: usize,
    ) -> u32;

    /// The round fallback: middle angle and middle height, from heights and angles.
    pub fn facepoint_cylinder_point(
        heights: *const f64,
        heights_length: usize,
        angles: *const f64,
        angles_length: usize,
        result: *mut f64,
        result_length: usize,
    ) -> u32;

    /// A point moved by a transform.
    pub fn facepoint_placed(
        transform: *const f64,
        transform_length: usize,
        point: *const f64,
        point_length: usize,
        result: *mut f64,
        result_length: usize,
    ) -> u32;

    /// The IEEE 754 square root, nearest, ties to even.
    pub fn facepoint_root(x: f64) -> f64;

    /// The nearest whole number, halves away from zero; a zero keeps its sign.
    pub fn facepoint_round(x: f64) -> f64;
}
