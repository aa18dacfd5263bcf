//! "Number leaves" of document 01.

/// PI, bits 400921FB54442D18.
pub const PI: f64 = f64::from_bits(0x4009_21FB_5444_2D18);
/// TAU, bits 401921FB54442D18.
pub const TAU: f64 = f64::from_bits(0x4019_21FB_5444_2D18);

/// The hardware's root is IEEE 754's.
pub fn root(x: f64) -> f64 {
    x.sqrt()
}

pub fn hypot(a: f64, b: f64) -> f64 {
    root(a * a + b * b)
}

pub fn hypot3(a: f64, b: f64, c: f64) -> f64 {
    hypot(hypot(a, b), c)
}

/// Nearest whole number, halves away from zero, sign of zero kept.
pub fn round(x: f64) -> f64 {
    x.round()
}

/// Keeps the first unless the second is less.
pub fn smaller_of(first: f64, second: f64) -> f64 {
    if second < first {
        second
    } else {
        first
    }
}

/// Keeps the first unless the second is greater.
pub fn larger_of(first: f64, second: f64) -> f64 {
    if second > first {
        second
    } else {
        first
    }
}

pub fn clamp(x: f64, low: f64, high: f64) -> f64 {
    if x < low {
        low
    } else if x > high {
        high
    } else {
        x
    }
}
