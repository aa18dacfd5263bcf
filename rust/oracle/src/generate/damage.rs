//! Damaged copies of a call, for every way to be refused by 1 to 10. The
//! original is not run on them: its host gives it nothing of the kind.

use crate::call::{bits, Call, Given};
use crate::compare::UNWRITTEN;
use crate::rng::Rng;
use crate::sheet::{set_length, Sheet, PLANE, TORUS};

/// A call that must be refused, and by which number.
#[derive(Clone, Debug)]
pub struct Damaged {
    pub what: &'static str,
    pub number: u32,
    pub call: Call,
    pub sheet: Vec<u8>,
    pub phase: u32,
    /// What the chart is lent.
    output: Vec<f64>,
    images: Vec<f64>,
}

impl Damaged {
    /// The call as a caller sees it.
    pub fn given(self) -> Given {
        let (phase, list) = match self.call {
            Call::Chart => (self.phase, self.output),
            Call::ImagePick => (self.phase, self.images),
            Call::PlanePick => (0, Vec::new()),
        };
        Given {
            call: self.call,
            sheet: self.sheet,
            phase,
            list: bits(&list),
        }
    }
}

/// The damaged copies of the calls on a sheet that passes checks 1 to 7.
pub fn damaged(rng: &mut Rng, sheet: &Sheet) -> Vec<Damaged> {
    let whole = Whole {
        bytes: sheet.bytes(),
        sheet: sheet.clone(),
    };
    let mut list = Vec::new();
    whole.header(rng, &mut list);
    whole.blocks(&mut list);
    whole.coedge_counts(&mut list);
    whole.numbers(rng, &mut list);
    whole.phases(&mut list);
    whole.lists(&mut list);
    list
}

struct Whole {
    sheet: Sheet,
    bytes: Vec<u8>,
}

impl Whole {
    /// An undamaged call, to be damaged by the caller.
    fn call(&self, what: &'static str, number: u32, call: Call) -> Damaged {
        let points = self.sheet.point_count();
        Damaged {
            what,
            number,
            call,
            sheet: self.bytes.clone(),
            phase: 0,
            output: vec![UNWRITTEN; 2 * points],
            images: vec![0.0; 3 * (points + 1)],
        }
    }

    /// All three calls read the sheet first, whatever their phase.
    fn all(&self, what: &'static str, number: u32, sheet: &[u8], list: &mut Vec<Damaged>) {
        for call in Call::ALL {
            list.push(Damaged {
                sheet: sheet.to_vec(),
                phase: 2,
                ..self.call(what, number, call)
            });
        }
    }

    /// The bytes changed by `change`, their length field set right after it.
    fn changed(&self, change: impl FnOnce(&mut Vec<u8>)) -> Vec<u8> {
        let mut bytes = self.bytes.clone();
        change(&mut bytes);
        set_length(&mut bytes);
        bytes
    }

    fn header(&self, rng: &mut Rng, list: &mut Vec<Damaged>) {
        let short = rng.below(8);
        self.all("under 8 bytes", 1, &self.bytes[..short], list);
        let cut = rng.whole(8, self.bytes.len() - 1);
        self.all("cut short", 1, &self.bytes[..cut], list);
        let longer = [&self.bytes[..], &[0]].concat();
        self.all("a byte more", 1, &longer, list);
        let mut field = self.bytes.clone();
        field[rng.below(4)] ^= 1 << rng.below(8);
        self.all("length field", 1, &field, list);
        let version = if rng.once_in(2) { 0 } else { rng.whole(2, 255) };
        let set = |at: usize, byte: usize| self.changed(|bytes| bytes[at] = byte as u8);
        self.all("version", 2, &set(4, version), list);
        self.all("kind", 3, &set(5, rng.whole(7, 255)), list);
        self.all("sense", 3, &set(6, rng.whole(3, 255)), list);
        self.all("no rings", 4, &set(7, 0), list);
        self.all("17 rings", 4, &set(7, 17), list);
        self.all("too many rings", 4, &set(7, rng.whole(18, 255)), list);
    }

    fn blocks(&self, list: &mut Vec<Damaged>) {
        let rings = self.sheet.rings.len();
        let last = self.sheet.block_start(rings - 1);
        if rings < 16 {
            let more = self.changed(|bytes| bytes[7] += 1);
            self.all("a ring block missing", 5, &more, list);
        }
        if rings > 1 {
            let fewer = self.changed(|bytes| bytes[7] -= 1);
            self.all("a ring block over", 5, &fewer, list);
        }
        let over = self.changed(|bytes| bytes.push(0));
        self.all("a byte over", 5, &over, list);
        let short = self.changed(|bytes| bytes.truncate(bytes.len() - 1));
        self.all("a byte missing", 5, &short, list);
        let overrun = self.changed(|bytes| bytes[last] += 1);
        self.all("a coedge missing", 5, &overrun, list);
        let empty_and_over = self.changed(|bytes| bytes[last] = 0);
        self.all("0 coedges and bytes over", 5, &empty_and_over, list);
        let header_alone = self.changed(|bytes| bytes.truncate(8));
        self.all("no blocks", 5, &header_alone, list);
    }

    fn coedge_counts(&self, list: &mut Vec<Damaged>) {
        let mut many = self.sheet.clone();
        let first = many.rings[0].0[0].clone();
        let missing = 129 - many.coedges().count();
        many.rings[0].0.extend(vec![first; missing]);
        self.all("129 coedges", 6, &many.bytes(), list);
        if self.sheet.rings.len() < 16 {
            let mut empty = self.sheet.clone();
            empty.rings.push(Default::default());
            self.all("an empty ring", 6, &empty.bytes(), list);
            empty.rings[0].0[0].deviation = f64::NAN;
            self.all("an empty ring after a NaN", 6, &empty.bytes(), list);
        }
    }

    fn numbers(&self, rng: &mut Rng, list: &mut Vec<Damaged>) {
        let infinite = [f64::NAN, f64::INFINITY, f64::NEG_INFINITY];
        let beyond = 1_048_576.0f64.next_up();
        let far = [&infinite[..], &[beyond, -beyond]].concat();
        let deviations = [0.002, 0.002f64.next_up(), -5e-324, -1.0];
        let wrong = [&infinite[..], &deviations].concat();
        let mut bad = self.sheet.clone();
        let coordinates = bad.points_mut().count();
        let point = rng.below(coordinates);
        if let Some(p) = bad.points_mut().nth(point) {
            p[rng.below(2)] = rng.pick(&far);
        }
        self.all("coordinate", 7, &bad.bytes(), list);
        let mut bad = self.sheet.clone();
        let ring = rng.below(bad.rings.len());
        let coedge = rng.below(bad.rings[ring].0.len());
        bad.rings[ring].0[coedge].deviation = rng.pick(&wrong);
        self.all("deviation", 7, &bad.bytes(), list);
        if self.sheet.kind == PLANE {
            let over = 2.0f64.next_up();
            let long = [&infinite[..], &[over, -over]].concat();
            self.plane_numbers(rng, &far, &long, list);
        }
    }

    fn plane_numbers(&self, rng: &mut Rng, far: &[f64], long: &[f64], list: &mut Vec<Damaged>) {
        let mut bad = self.sheet.clone();
        bad.plane.origin[rng.below(3)] = rng.pick(far);
        self.all("origin", 7, &bad.bytes(), list);
        let mut bad = self.sheet.clone();
        bad.plane.u_axis[rng.below(3)] = rng.pick(long);
        self.all("u axis", 7, &bad.bytes(), list);
        let mut bad = self.sheet.clone();
        bad.plane.normal[rng.below(3)] = rng.pick(long);
        self.all("normal", 7, &bad.bytes(), list);
    }

    fn phases(&self, list: &mut Vec<Damaged>) {
        for call in [Call::Chart, Call::ImagePick] {
            let mut phase = |what, phase| {
                // A later check's fault beside it does not come first.
                list.push(Damaged {
                    phase,
                    output: Vec::new(),
                    images: Vec::new(),
                    ..self.call(what, 8, call)
                });
            };
            phase("phase 2", 2);
            phase("phase 2^32 − 1", u32::MAX);
            if self.sheet.kind != TORUS {
                phase("phase 1 off a torus", 1);
            }
        }
        if self.sheet.kind != PLANE {
            list.push(self.call("plane pick off a plane", 8, Call::PlanePick));
        }
    }

    fn lists(&self, list: &mut Vec<Damaged>) {
        let points = self.sheet.point_count();
        for room in [0, points, 2 * points - 1] {
            let mut short = self.call("output short", 9, Call::Chart);
            short.output.truncate(room);
            list.push(short);
        }
        for length in [
            0,
            3 * points,
            3 * points + 2,
            3 * points + 4,
            3 * points + 6,
        ] {
            let mut wrong = self.call("image list's length", 10, Call::ImagePick);
            wrong.images.resize(length, 0.0);
            list.push(wrong);
        }
        let beyond = 1_073_741_824.0f64.next_up();
        for entry in [f64::NAN, f64::INFINITY, f64::NEG_INFINITY, beyond, -beyond] {
            for at in [0, 3 * points + 2] {
                let mut wrong = self.call("image", 10, Call::ImagePick);
                wrong.images[at] = entry;
                list.push(wrong);
            }
        }
    }
}
