//! How often the calls of many seeds reach each thing.

use oracle::call::Call;
use oracle::convention::answered_as;
use oracle::sheet::{PLANE, TORUS};
use oracle::tally::Tally;

/// Everything came up as often as so many seeds should bring it; the numbers
/// are for 10,000 of them.
pub fn assert_reached(tally: &Tally, seeds: u64) {
    let at_least = |times: u64, what: &str| {
        let (count, wanted) = (tally.of(what) as u64, times * seeds / 10_000);
        assert!(count >= wanted, "{what}: {count}, wanted {wanted}");
    };
    for call in Call::ALL {
        at_least(15_000, &format!("{call}: calls"));
        at_least(5_000, &format!("{call}: judged by the original"));
        at_least(4_000, &format!("{call}: status 0"));
        for number in call.refusals() {
            at_least(100, &format!("{call}: status {number}"));
        }
    }
    assert_kinds_are_answered(&at_least);
    assert_orders_are_met(&at_least);
    assert_images_are_met(&at_least);
}

/// Every kind, sense and phase that can answer.
fn assert_kinds_are_answered(at_least: &impl Fn(u64, &str)) {
    for sense in 0..=2 {
        at_least(100, &answered_as(Call::PlanePick, PLANE, sense, 0));
        for kind in 0..=6 {
            for phase in 0..=u32::from(kind == TORUS) {
                at_least(30, &answered_as(Call::Chart, kind, sense, phase));
                at_least(30, &answered_as(Call::ImagePick, kind, sense, phase));
            }
        }
    }
}

/// Rings in another order: answered, and refused by every check from 6 on.
fn assert_orders_are_met(at_least: &impl Fn(u64, &str)) {
    for call in Call::ALL {
        at_least(800, &format!("{call}, reordered: status 0"));
        for number in call.refusals().iter().filter(|n| **n >= 6 && **n != 9) {
            at_least(10, &format!("{call}, reordered: status {number}"));
        }
    }
}

/// Check 10 before each later check; both sides of checks 10 and 15.
fn assert_images_are_met(at_least: &impl Fn(u64, &str)) {
    for check in 11..=14 {
        at_least(
            20,
            &format!("image pick, wrong images before {check}: status 10"),
        );
    }
    for status in [0, 15] {
        at_least(200, &format!("image pick, near images: status {status}"));
        at_least(
            50,
            &format!("plane pick, plane at its limit: status {status}"),
        );
    }
    at_least(200, "image pick, images at their limit: status 0");
    at_least(200, "image pick, another surface: status 0");
    at_least(200, "image pick answers a -0");
}
