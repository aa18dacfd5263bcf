//! Vectors of three coordinates, as sketch.rs has them.

use super::leaves::{hypot3, root};

pub type Position = [f64; 3];

/// The greatest length that `unit` takes for none.
pub const PARALLEL: f64 = 1e-9;

pub fn dot(a: Position, b: Position) -> f64 {
    a[0] * b[0] + a[1] * b[1] + a[2] * b[2]
}

pub fn cross(a: Position, b: Position) -> Position {
    [
        a[1] * b[2] - a[2] * b[1],
        a[2] * b[0] - a[0] * b[2],
        a[0] * b[1] - a[1] * b[0],
    ]
}

pub fn difference(a: Position, b: Position) -> Position {
    [a[0] - b[0], a[1] - b[1], a[2] - b[2]]
}

/// By root, where `distance` has the stand-in for `hypot`.
pub fn length(v: Position) -> f64 {
    root(dot(v, v))
}

/// None where the vector is too short or has no finite length.
pub fn unit(v: Position) -> Option<Position> {
    let length = length(v);
    (length > PARALLEL && length.is_finite()).then(|| v.map(|x| x / length))
}

pub fn distance(a: Position, b: Position) -> f64 {
    let [x, y, z] = difference(a, b);
    hypot3(x, y, z)
}

/// The three coordinates from this place of a list on.
pub fn position(list: &[f64], at: usize) -> Position {
    [list[at], list[at + 1], list[at + 2]]
}
