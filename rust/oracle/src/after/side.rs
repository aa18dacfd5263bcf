//! A spherical triangle and its sides, as the call's lists have them.

pub use facepoint_calls::SIDE_LENGTH;

use super::{triple, Given};

#[derive(Clone, Copy, Debug)]
pub struct Triangle {
    pub centre: [f64; 3],
    pub radius: f64,
    pub sides: [Side; 3],
}

impl Triangle {
    /// Of a call whose lists have their length.
    pub fn read(given: &Given) -> Triangle {
        let [centre, radius, sides] = [0, 1, 2].map(|k| &given.lists[k][..]);
        Triangle {
            centre: triple(centre),
            radius: radius[0],
            sides: [0, 1, 2].map(|k| Side::read(&sides[SIDE_LENGTH * k..])),
        }
    }
}

#[derive(Clone, Copy, Debug)]
pub struct Side {
    /// As the edge has them, before any reversal.
    pub ends: [[f64; 3]; 2],
    /// 1 where the coedge is walked against its edge, else 0.
    pub reversed: f64,
    pub circle_centre: [f64; 3],
    pub circle_radius: f64,
    pub range: [f64; 2],
    /// What the host's evaluation of the curve gives at the ends of the range.
    pub evaluated: [[f64; 3]; 2],
}

impl Side {
    /// The first numbers of a list that has enough of them.
    pub fn read(list: &[f64]) -> Side {
        let at = |k: usize| triple(&list[k..]);
        Side {
            ends: [at(0), at(3)],
            reversed: list[6],
            circle_centre: at(7),
            circle_radius: list[10],
            range: [list[11], list[12]],
            evaluated: [at(13), at(16)],
        }
    }

    pub fn numbers(&self) -> Vec<f64> {
        let parts: [&[f64]; 6] = [
            self.ends.as_flattened(),
            &[self.reversed],
            &self.circle_centre,
            &[self.circle_radius],
            &self.range,
            self.evaluated.as_flattened(),
        ];
        parts.concat()
    }
}
