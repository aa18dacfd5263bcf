//! A point inside a trimmed CAD face: inside its outer trim, outside its holes, well
//! clear of both. Every input ends in a point or a [`Refusal`].
//!
//! The crate is a safe door to the proved picker: its calls are linked from an archive
//! of machine code that was written in Rattle and proved against document 01
//! (docs/papers/01-scope.md), with the same bits as the Rust that it replaces. What
//! this crate adds around them is tested and not proved.
//!
//! # A face with a hole
//!
//! ```
//! use facepoint::{plane_pick, Face, Kind, Plane, Refusal, Ring, Sense};
//!
//! let square = |low: f64, high: f64| {
//!     Ring::polygon(&[[low, low], [high, low], [high, high], [low, high]])
//! };
//! let plate = |hole: Ring| {
//!     Face::new(Kind::Plane(Plane::XY), Sense::Forward)
//!         .ring(square(0.0, 1.0))
//!         .ring(hole)
//!         .sheet()
//! };
//!
//! let pick = plane_pick(&plate(square(0.25, 0.75))?)?;
//! assert_eq!(pick.point, [0.15625, 0.15625, 0.0]);
//! assert_eq!(pick.count, 705);
//!
//! // A hole that leaves a rim too thin to stand on.
//! let none = plane_pick(&plate(square(0.015625, 0.984375))?);
//! assert_eq!(none, Err(Refusal::NoneClear));
//! # Ok::<(), Box<dyn std::error::Error>>(())
//! ```
//!
//! # From a model to points
//!
//! | Step | With |
//! |---|---|
//! | Sample each edge in its face's chart | [`sample_parameter`], [`direction`] |
//! | Write the face as a sheet | [`Coedge`], [`Ring`], [`Face::sheet`] |
//! | Find the point | [`pick_face`] with a [`Surface`] of the caller's, [`pick_all`] on threads; or the calls that they make: [`plane_pick`], [`chart`] and [`image_pick`], [`spherical_triangle`] |
//! | Where there is none | the fallbacks [`point_on`] on planes, [`cylinder_point`] on cylinders and cones |
//! | Bring it where the body stands | [`placed`] |
//!
//! [`picture::svg`] draws a sheet, with what the picker sees in it.
//!
//! # Calls
//!
//! No call relies on what was checked before: each makes all of its checks, and answers
//! for every input. The calls are pure, keep nothing between them, take no memory from
//! the heap and may be made from several threads at once.
//!
//! Two things are the caller's to see to, since no call can test them:
//!
//! - The stack. A call takes at most [`STACK`] bytes of it, whatever it is given; what
//!   this crate does around it takes little. On a thread that has less left the process
//!   dies. The threads of [`pick_all`] have std's default size, which is 2 MiB unless
//!   the environment says otherwise (RUST_MIN_STACK).
//! - The floating-point environment, which Rust never changes but a C library may:
//!   rounding to nearest, and no flushing of subnormals to zero. Under
//!   `fesetround(FE_UPWARD)` the sample panel has a count of 798 in place of 795; with
//!   flushing, as a program has it that gcc links with `-ffast-math`, a z of 5e-324
//!   comes back as 0.
//!
//! # Building
//!
//! The build script of rust/calls links the archive that the environment names by
//! FACEPOINT_ARCHIVE (its whole path), else the repository's
//! crates/capi/out/libcapi.a; where neither is there it has the archive built by `rt
//! lib` in crates/capi, which wants the Rattle kit and some minutes. The archive is for
//! x86-64 Linux; of the C library it calls `memset` and `memcpy` at most.

#![deny(missing_docs, unsafe_code)]

mod after;
#[allow(unsafe_code)]
mod archive;
mod face;
mod file;
mod picker;
pub mod picture;
mod refusal;
mod sheet;

pub use after::{
    cylinder_point, direction, placed, point_on, sample_parameter, spherical_triangle, Direction,
    Middle, Side, Triangle,
};
pub use face::{pick_all, pick_face, By, FaceError, FacePick, Surface};
pub use file::{FileError, LONGEST_FILE};
pub use picker::{chart, image_pick, plane_pick, Chart, Phase, Pick};
pub use refusal::Refusal;
pub use sheet::{BuildError, Coedge, Face, Kind, Plane, Ring, Sense, Sheet, SAMPLES};

/// The README's Rust, compiled and run with the other examples.
#[cfg(doctest)]
#[doc = include_str!("../../../README.md")]
struct Readme;

/// The bytes of stack that a call may take, with a margin; whatever it is given, it
/// takes no more. A thread that is made for calls needs this and room for itself:
///
/// ```
/// use std::thread;
/// use facepoint::{plane_pick, Refusal, Sheet, STACK};
///
/// // For the thread's own start, and for what stands above the call.
/// const ITS_OWN: usize = 64 * 1024;
/// let thread = thread::Builder::new().stack_size(STACK + ITS_OWN);
/// let empty = thread.spawn(|| plane_pick(&Sheet::from_bytes([])))?;
/// assert_eq!(empty.join().expect("no panic"), Err(Refusal::Length));
/// # Ok::<(), std::io::Error>(())
/// ```
pub const STACK: usize = facepoint_calls::STACK;

/// A point of a face's chart: u, v.
pub type Uv = [f64; 2];

/// A point in space: x, y, z.
pub type Xyz = [f64; 3];
