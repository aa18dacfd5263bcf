//! Lists of images: of a surface, of wrong length or with a wrong number, and at
//! the limits of checks 10 and 15.

use crate::call::{Call, Given};
use crate::original::{Run, RECORDED};
use crate::rng::Rng;
use crate::sheet::{Plane, Sheet, SAMPLES};
use crate::surface::Surface;

/// The greatest magnitude of an image's coordinate.
const FARTHEST: f64 = 1_073_741_824.0;
/// Far from the last image, for any limit of check 15. Powers of two keep the
/// distances of `near_images` exact.
const FAR: f64 = 1024.0;

/// The images of the points that the original evaluated, the answer's last; where
/// it came to none, zeros in a list of the right length.
pub fn images_on(surface: Surface, sheet: &Sheet, run: &Run) -> Vec<f64> {
    let Some((answered, written)) = run.calls.split_first() else {
        return vec![0.0; 3 * (sheet.point_count() + 1)];
    };
    let points = written.iter().chain([answered]);
    points
        .flat_map(|[u, v]| surface.point(*u, *v).expect("evaluated everywhere"))
        .collect()
}

/// A call with a list of the right length, its images on the flat plane.
pub fn on_flat_plane(call: Call, sheet: &Sheet, phase: u32) -> Given {
    match call {
        Call::Chart => Given::chart(sheet, phase),
        Call::ImagePick => {
            let flat = Surface::Plane(Plane::FLAT);
            let images = images_on(flat, sheet, &RECORDED.pick(sheet, phase, flat));
            Given::image_pick(sheet, phase, &images)
        }
        Call::PlanePick => Given::plane_pick(sheet),
    }
}

/// A list of another length, or one with a number that is refused.
pub fn wrong_images(rng: &mut Rng, images: &[f64]) -> Vec<f64> {
    let mut images = images.to_vec();
    let length = images.len();
    if rng.once_in(2) {
        let lengths = [
            0,
            3,
            length - 3,
            length - 1,
            length + 1,
            length + 3,
            2 * length,
        ];
        images.resize(rng.pick(&lengths), 0.0);
        return images;
    }
    let beyond = FARTHEST.next_up();
    let numbers = [f64::NAN, f64::INFINITY, f64::NEG_INFINITY, beyond, -beyond];
    let places = [
        0,
        length - 3,
        length - 1,
        rng.below(length),
        rng.below(length),
    ];
    images[rng.pick(&places)] = rng.pick(&numbers);
    images
}

/// Numbers of exactly 2^30 and −2^30, or a last image with a −0.
pub fn images_at_limit(rng: &mut Rng, images: &[f64]) -> Vec<f64> {
    let mut images = images.to_vec();
    let last = images.len() - 3;
    if rng.once_in(2) {
        for place in [rng.below(last), last + rng.below(3)] {
            images[place] = rng.pick(&[FARTHEST, -FARTHEST]);
        }
    } else {
        images[last + rng.below(3)] = -0.0;
    }
    images
}

/// Zeros of either sign for the last image, and one segment of one ring at this
/// distance from it, or of none; all else is far. Rings lie to either side of the
/// last image in turn, so that a segment from one to the next would meet it.
pub fn near_images(rng: &mut Rng, sheet: &Sheet, distance: f64) -> Vec<f64> {
    let near = rng.below(sheet.rings.len() + 1);
    let mut images = Vec::new();
    for (k, ring) in sheet.rings.iter().enumerate() {
        let points = SAMPLES * ring.0.len();
        if k == near {
            images.extend(near_ring(rng, points, distance));
        } else {
            let side = if k % 2 == 0 { FAR } else { -FAR };
            images.extend(vec![[side, 0.0, 0.0]; points]);
        }
    }
    images.push([0; 3].map(|_| rng.pick(&[0.0, -0.0])));
    let turned = rng.below(3);
    images.iter_mut().for_each(|p| p.rotate_left(turned));
    images.concat()
}

/// A triangle whose first side passes 0 at this distance, its corners repeated.
/// That side is at any place of the ring, the last one too.
fn near_ring(rng: &mut Rng, points: usize, distance: f64) -> Vec<[f64; 3]> {
    let first = rng.whole(1, points - 2);
    let second = rng.whole(first + 1, points - 1);
    let mut ring = vec![[distance, FAR, 0.0]; points];
    ring[first..second].fill([distance, -FAR, 0.0]);
    ring[second..].fill([8.0 * FAR, 0.0, 0.0]);
    let any = rng.below(points);
    ring.rotate_left(rng.pick(&[first, first, any]));
    ring
}
