//! Small stand-ins for what the original uses and is not here: the JSON value,
//! the context of rows and the geometry crate. They carry a sheet's exact
//! numbers into `edge_points` and the injected surface into the final part.

pub mod cadmpeg;
mod context;
pub mod json;
pub mod scene;

pub use context::Context;
