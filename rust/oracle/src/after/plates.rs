//! Every refusal of the calls after the picker beside the neighbour that passes its
//! check, each comparison on both sides of it.

mod fallbacks;
mod triangle;

pub use triangle::Octant;

use super::Given;

/// The greatest magnitude of a number of the triangle and of the fallbacks.
const FARTHEST: f64 = 1_048_576.0;

/// Two inputs that are neighbours.
pub struct Plate {
    pub what: &'static str,
    /// The status of the first: the number by which it is refused.
    pub number: u32,
    pub refused: Given,
    /// The neighbour, and its status: 0, or a later number.
    pub passes: Given,
    pub then: u32,
}

impl Plate {
    /// The neighbour passes this check and fails a later one.
    fn then(self, then: u32) -> Plate {
        Plate { then, ..self }
    }
}

/// `number` refuses the one that `make` gives, and not the other.
fn plate<T>(
    number: u32,
    what: &'static str,
    make: impl Fn(T) -> Given,
    [refused, passes]: [T; 2],
) -> Plate {
    Plate {
        what,
        number,
        refused: make(refused),
        passes: make(passes),
        then: 0,
    }
}

/// A number that passes, after the one above it, which does not.
fn above(x: f64) -> [f64; 2] {
    [x.next_up(), x]
}

/// A number that passes, after the one below it, which does not.
fn below(x: f64) -> [f64; 2] {
    [x.next_down(), x]
}

/// All of them, call by call in the order of the checks.
pub fn plates() -> Vec<Plate> {
    let mut plates = sample_parameter();
    plates.extend(direction());
    plates.extend(triangle::numbers());
    plates.extend(triangle::sides());
    plates.extend(triangle::as_a_whole());
    plates.extend(fallbacks::corner_numbers());
    plates.extend(fallbacks::corner_counts());
    plates.extend(fallbacks::centres());
    plates.extend(fallbacks::heights());
    plates.extend(fallbacks::angles());
    plates.extend(placed_numbers());
    plates.extend(placed_sums());
    plates
}

fn sample_parameter() -> Vec<Plate> {
    let first = |a: f64| Given::sample_parameter(a, 1.0, 0);
    let last = |b: f64| Given::sample_parameter(0.0, b, 16);
    let between = |a: f64| Given::sample_parameter(a, f64::MAX, 3);
    let n = |n: u32| Given::sample_parameter(0.0, 1.0, n);
    vec![
        plate(16, "a NaN", first, [f64::NAN, -0.0]),
        plate(16, "b infinite", last, above(f64::MAX)),
        plate(16, "a infinite", between, below(f64::MIN)),
        plate(16, "n = 17", n, [17, 16]),
        plate(16, "n far", n, [u32::MAX, 15]),
    ]
}

fn direction() -> Vec<Plate> {
    let of_length = |length: usize| Given::direction(&vec![0.25; length]);
    let last = |x: f64| {
        let mut points = [0.25; 12];
        points[11] = x;
        Given::direction(&points)
    };
    vec![
        plate(16, "none", of_length, [0, 12]),
        plate(16, "one short", of_length, [11, 12]),
        plate(16, "one over", of_length, [13, 12]),
        plate(16, "a NaN", last, [f64::NAN, -0.0]),
        plate(16, "infinite", last, below(f64::MIN)),
    ]
}

const IDENTITY: [f64; 12] = [1.0, 0.0, 0.0, 5.0, 0.0, 1.0, 0.0, 6.0, 0.0, 0.0, 1.0, 7.0];

fn placed_numbers() -> Vec<Plate> {
    let rows = |length: usize| Given::placed(&vec![0.5; length], &[0.0; 3]);
    let point = |length: usize| Given::placed(&IDENTITY, &vec![0.5; length]);
    let height = |z: f64| Given::placed(&IDENTITY, &[0.0, 0.0, z]);
    let translation = |x: f64| {
        let mut transform = IDENTITY;
        transform[3] = x;
        Given::placed(&transform, &[1.0, 2.0, 3.0])
    };
    vec![
        plate(16, "11 numbers", rows, [11, 12]),
        plate(16, "13 numbers", rows, [13, 12]),
        plate(16, "point of two", point, [2, 3]),
        plate(16, "point of four", point, [4, 3]),
        plate(16, "a NaN", height, [f64::NAN, -0.0]),
        plate(16, "infinite", translation, above(f64::MAX)),
        plate(16, "infinite below", translation, below(f64::MIN)),
    ]
}

fn placed_sums() -> Vec<Plate> {
    // Added to the greatest number, this is just what rounds on to infinity.
    let half = 2.0f64.powi(970);
    let sum = |x: f64| {
        let mut transform = IDENTITY;
        (transform[8], transform[11]) = (x, f64::MAX);
        Given::placed(&transform, &[1.0, 0.0, 0.0])
    };
    let product = |x: f64| {
        let mut transform = IDENTITY;
        transform[6] = x;
        Given::placed(&transform, &[1.0, 2.0, 2.0])
    };
    vec![
        plate(24, "sum too great", sum, [half, half.next_down()]),
        plate(24, "product too great", product, above(f64::MAX / 2.0)),
    ]
}
