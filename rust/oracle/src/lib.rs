//! The judge of facepoint: the original picker run from its own text, a model
//! written from document 01, and the sheets to hold them against each other.

// The original names two crates that are not here; the shims answer to both.
extern crate self as cadmpeg_ir;
extern crate self as serde_json;

pub mod after;
pub mod bench;
mod big_endian;
pub mod call;
pub mod compare;
pub mod convention;
pub mod generate;
pub mod model;
pub mod original;
pub mod plates;
pub mod recorder;
pub mod replay;
pub mod rng;
pub mod samples;
pub mod sheet;
mod shims;
mod stand_in;
pub mod surface;
pub mod tally;
pub mod vectors;

#[cfg(facepoint_archive)]
pub mod archive;
#[cfg(all(facepoint_picker, facepoint_after))]
pub mod stack;

#[doc(hidden)]
pub use shims::cadmpeg::{eval, geometry, math};
#[doc(hidden)]
pub use shims::json::{from_value, Value};

/// The copies of uv.rs that build.rs makes.
mod copies {
    include!(concat!(env!("OUT_DIR"), "/copies.rs"));
}
