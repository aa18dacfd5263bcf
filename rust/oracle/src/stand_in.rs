//! Document 01's stand-in for `hypot`, whose body is in no listed file.

pub(crate) trait RootOfSquares {
    /// Root of (a×a + b×b), each operation rounded.
    fn root_of_squares(self, other: Self) -> Self;
}

impl RootOfSquares for f64 {
    fn root_of_squares(self, other: f64) -> f64 {
        (self * self + other * other).sqrt()
    }
}
