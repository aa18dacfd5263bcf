//! The spherical triangle: refusals 16 to 19.

use std::f64::consts::PI;

use super::{above, below, plate, Plate, FARTHEST};
use crate::after::{Given, Side};

/// An octant around the origin, forward.
#[derive(Clone)]
pub struct Octant {
    pub centre: Vec<f64>,
    pub radius: f64,
    pub sense: u32,
    pub sides: [Side; 3],
}

impl Octant {
    pub fn new(radius: f64) -> Octant {
        let corner = |k: usize| [0, 1, 2].map(|axis| if axis == k % 3 { radius } else { 0.0 });
        let side = |k: usize| Side {
            ends: [corner(k), corner(k + 1)],
            reversed: 0.0,
            circle_centre: [0.0; 3],
            circle_radius: radius,
            range: [0.0, PI / 2.0],
            evaluated: [corner(k), corner(k + 1)],
        };
        Octant {
            centre: vec![0.0; 3],
            radius,
            sense: 1,
            sides: [side(0), side(1), side(2)],
        }
    }

    /// Changed, as it is given.
    fn with(mut self, change: impl FnOnce(&mut Octant)) -> Given {
        change(&mut self);
        self.given()
    }

    pub fn given(&self) -> Given {
        let sides: Vec<f64> = self.sides.iter().flat_map(Side::numbers).collect();
        Given::spherical_triangle(&self.centre, self.radius, self.sense, &sides)
    }
}

fn unit() -> Octant {
    Octant::new(1.0)
}

/// Check 16.
pub fn numbers() -> Vec<Plate> {
    let centre = |length: usize| unit().with(|o| o.centre.resize(length, 0.0));
    let sides = |length: usize| {
        let mut given = unit().given();
        given.lists[2].resize(length, 0.0);
        given
    };
    let radius = |r: f64| unit().with(|o| o.radius = r);
    let sense = |s: u32| unit().with(|o| o.sense = s);
    let flag = |flag: f64| unit().with(|o| o.sides[1].reversed = flag);
    let range = |x: f64| unit().with(|o| o.sides[2].range = [x, x]);
    vec![
        plate(16, "centre of two", centre, [2, 3]),
        plate(16, "centre of four", centre, [4, 3]),
        plate(16, "no sides", sides, [0, 57]),
        plate(16, "sides of 56", sides, [56, 57]),
        plate(16, "sides of 58", sides, [58, 57]),
        plate(16, "a NaN", range, [f64::NAN, -0.0]),
        plate(16, "a number far", range, above(FARTHEST)),
        plate(16, "far below", range, below(-FARTHEST)),
        plate(16, "radius 0", radius, [0.0, f64::from_bits(1)]).then(17),
        plate(16, "radius below 0", radius, [-1.0, 1.0]),
        plate(16, "sense 3", sense, [3, 2]).then(19),
        plate(16, "flag 2", flag, [2.0, 1.0]).then(18),
        plate(16, "flag below 1", flag, [1.0f64.next_down(), -0.0]),
    ]
}

/// Check 17: the sides by themselves. Of a radius of 1e6 or 1e5 the limit is 1.
pub fn sides() -> Vec<Plate> {
    let [mega, large] = [1e6, 1e5];
    let centre = |x: f64| Octant::new(mega).with(|o| o.sides[2].circle_centre[1] = x);
    let circle = |r: f64| Octant::new(mega).with(|o| o.sides[0].circle_radius = r);
    let sweep = |to: f64| unit().with(|o| o.sides[1].range = [0.0, to]);
    let evaluated = |x: f64| Octant::new(large).with(|o| o.sides[2].evaluated[1][1] = x);
    let end = |far: f64| {
        Octant::new(large).with(|o| {
            o.sides[0].ends[0][0] = far;
            o.sides[0].evaluated[0][0] = far;
        })
    };
    let small = |radius: f64| Octant::new(radius).given();
    vec![
        plate(17, "circle centre", centre, above(1.0)),
        plate(17, "circle radius over", circle, above(mega + 1.0)),
        plate(17, "circle radius under", circle, below(mega - 1.0)),
        plate(17, "sweep", sweep, above(PI)),
        plate(17, "sweep back", sweep, below(-PI)),
        plate(17, "evaluated end", evaluated, above(1.0)),
        plate(17, "evaluated as walked", reversed, [true, false]),
        plate(17, "end outside", end, above(large + 1.0)),
        plate(17, "end inside", end, below(large - 1.0)),
        plate(17, "too small for unit", small, [1e-9, 1e-9f64.next_up()]),
    ]
}

/// A side walked against its edge, its ends evaluated as it is walked or not.
fn reversed(as_walked: bool) -> Given {
    unit().with(|o| {
        let side = &mut o.sides[1];
        side.reversed = 1.0;
        side.ends.reverse();
        if !as_walked {
            side.evaluated.reverse();
        }
    })
}

/// Checks 18 and 19.
pub fn as_a_whole() -> Vec<Plate> {
    // The direction is then 1e-5 from the next.
    let wide = above(1.0000000000375001e-5);
    // The least product is then 1e-6.
    let height = 2.4083189157637573e-6f64;
    let sense = |s: u32| unit().with(|o| o.sense = s);
    let none_walked_back = |flag: f64| {
        unit().with(|o| {
            o.sense = 0;
            o.sides[2].reversed = flag;
        })
    };
    vec![
        plate(17, "18 after 17", open_with_circle, [2.0, 1.0]).then(18),
        plate(18, "first gap", |y| gap(0, y), wide),
        plate(18, "second gap", |y| gap(1, y), wide),
        plate(18, "last gap", |y| gap(2, -y), wide),
        plate(18, "19 after 18", none_walked_back, [1.0, 0.0]).then(19),
        plate(19, "no sense", sense, [0, 1]),
        plate(19, "the other sense", sense, [2, 1]),
        plate(19, "no sum", around, [0.0, 1e-9]),
        plate(19, "product too small", low, [height, height.next_up()]),
    ]
}

/// Without a sense and open at its first corner; its last circle has this radius.
fn open_with_circle(radius: f64) -> Given {
    unit().with(|o| {
        o.sense = 0;
        o.sides[0].reversed = 1.0;
        o.sides[2].circle_radius = radius;
    })
}

/// The end of side k is off by so much.
fn gap(k: usize, off: f64) -> Given {
    unit().with(|o| {
        let beside = (k + 2) % 3;
        o.sides[k].ends[1][beside] = off;
        o.sides[k].evaluated[1][beside] = off;
    })
}

/// With these corners in place of the octant's.
fn through(corners: [[f64; 3]; 3]) -> Given {
    unit().with(|o| {
        for (k, side) in o.sides.iter_mut().enumerate() {
            side.ends = [corners[k], corners[(k + 1) % 3]];
            side.evaluated = side.ends;
        }
    })
}

/// Corners around the equator, so high above it.
fn around(z: f64) -> Given {
    let far = 0.75f64.sqrt();
    through([[1.0, 0.0, z], [-0.5, far, z], [-0.5, -far, z]])
}

/// The third corner sinks to the great circle of the others.
fn low(z: f64) -> Given {
    through([[1.0, 0.0, 0.0], [0.0, 1.0, 0.0], [0.6, 0.8, z]])
}
