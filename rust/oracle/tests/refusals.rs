//! Refusals 1 to 10, which the original lacks: every way to be refused, the
//! order of the checks, and the neighbour of each limit that passes.

use std::collections::BTreeMap;

use oracle::generate::{case, damaged_calls, largest, Trial};
use oracle::model::{Answer, MODEL};
use oracle::plates::{above_largest, plate_a};
use oracle::rng::Rng;
use oracle::sheet::{set_length, Ring, Sheet, FORWARD, OTHER, REVERSED, TORUS};

/// Stands in lent lists that must not be written.
const LENT: f64 = 7.0;

fn status(answer: Answer) -> u32 {
    answer.numbers().0
}

fn chart_status(sheet: &Sheet, phase: u32) -> u32 {
    let mut output = vec![LENT; 2 * sheet.point_count()];
    status(MODEL.chart(&sheet.bytes(), phase, &mut output))
}

#[test]
fn damaged_copies_are_refused_by_their_number() {
    let mut tally: BTreeMap<(u32, String), usize> = BTreeMap::new();
    for seed in 0..400 {
        let mut rng = Rng::new(seed);
        for Trial {
            what, given, judge, ..
        } in damaged_calls(&mut rng, &case(seed).sheet)
        {
            let left = given.judged(&judge);
            let left = left.unwrap_or_else(|e| panic!("seed {seed}: {what}, {}: {e}", given.call));
            assert_eq!(left.numbers, [0; 5]);
            *tally.entry((left.status, what)).or_default() += 1;
        }
    }
    for ((number, what), count) in &tally {
        println!("{count:6}  {number:2} {what}");
    }
    for number in 1..=10 {
        assert!(
            tally.keys().any(|(refused, _)| *refused == number),
            "{number}"
        );
    }
}

/// A call with every fault at once: repaired one after another, each in its
/// turn is the reason given.
#[test]
fn checks_run_in_table_order() {
    let mut sheet = Sheet::new(TORUS, FORWARD, vec![]);
    let around = |v: f64| Ring::curve(1, |part| [6.3 * part, v]);
    sheet.rings = vec![around(0.0), around(3.2).reversed(), Ring::default()];
    sheet.rings[0].0[0].deviation = 0.002;
    let mut bytes = sheet.bytes();
    let end = bytes.len();
    bytes.push(0);
    bytes[4] = 2;
    bytes[6] = 3;
    bytes[7] = 17;
    assert_eq!(both(&bytes, 2, 0), [1, 1]);
    set_length(&mut bytes);
    assert_eq!(both(&bytes, 2, 0), [2, 2]);
    bytes[4] = 1;
    assert_eq!(both(&bytes, 2, 0), [3, 3]);
    bytes[6] = 1;
    assert_eq!(both(&bytes, 2, 0), [4, 4]);
    bytes[7] = 3;
    assert_eq!(both(&bytes, 2, 0), [5, 5]);
    bytes.truncate(end);
    set_length(&mut bytes);
    assert_eq!(both(&bytes, 2, 0), [6, 6]);
    sheet.rings.pop();
    assert_eq!(both(&sheet.bytes(), 2, 0), [7, 7]);
    sheet.rings[0].0[0].deviation = 0.0;
    assert_eq!(both(&sheet.bytes(), 2, 0), [8, 8]);
    assert_eq!(both(&sheet.bytes(), 0, 0), [9, 10]);
    assert_eq!(both(&sheet.bytes(), 0, 34), [11, 11]);
}

/// The status of chart and image pick, with lists for so many points.
fn both(sheet: &[u8], phase: u32, points: usize) -> [u32; 2] {
    let mut output = vec![LENT; 2 * points];
    let images = vec![LENT; 3 * (points + 1)];
    [
        status(MODEL.chart(sheet, phase, &mut output)),
        status(MODEL.image_pick(sheet, phase, &images)),
    ]
}

#[test]
fn short_sheets_are_refused_by_1() {
    for length in 0..8 {
        let zeros = vec![0; length];
        assert_eq!(status(MODEL.plane_pick(&zeros)), 1);
    }
    let mut eight = vec![0; 8];
    set_length(&mut eight);
    assert_eq!(status(MODEL.plane_pick(&eight)), 2);
}

#[test]
fn numbers_at_their_limits_pass() {
    let far = 1_048_576.0;
    let mut sheet = plate_a();
    sheet.plane.origin = [far, -far, far];
    sheet.plane.u_axis = [2.0, -2.0, 2.0];
    sheet.plane.normal = [-2.0, -2.0, 2.0];
    sheet.set_deviation(0.002f64.next_down());
    assert_eq!(status(MODEL.plane_pick(&sheet.bytes())), 0);
    sheet.rings = vec![Ring::rectangle([-far, -far], [far, far])];
    sheet.set_deviation(-0.0);
    assert_eq!(chart_status(&sheet, 0), 0);
}

#[test]
fn codes_and_counts_at_their_limits_pass() {
    let square = plate_a().rings;
    assert_eq!(
        chart_status(&Sheet::new(OTHER, REVERSED, square.clone()), 0),
        0
    );
    assert_eq!(chart_status(&Sheet::new(TORUS, FORWARD, square), 1), 0);
    assert_eq!(chart_status(&largest(), 0), 0);
    assert_eq!(chart_status(&above_largest(), 0), 6);
}

#[test]
fn the_output_keeps_its_tail_and_a_refusal_writes_nothing() {
    let sheet = plate_a();
    let used = 2 * sheet.point_count();
    let mut output = vec![LENT; used + 3];
    assert_eq!(status(MODEL.chart(&sheet.bytes(), 0, &mut output)), 0);
    let points: Vec<f64> = sheet.coedges().flat_map(|c| c.points.concat()).collect();
    assert_eq!(output[..used], points);
    assert_eq!(output[used..], [LENT; 3]);

    let mut thin = sheet.clone();
    thin.rings.push(Ring::rectangle([0.01, 0.01], [0.99, 0.99]));
    let mut output = vec![LENT; 2 * thin.point_count()];
    assert_eq!(status(MODEL.chart(&thin.bytes(), 0, &mut output)), 14);
    assert!(output.iter().all(|x| *x == LENT));
}

#[test]
fn images_of_2_to_the_30_pass() {
    let sheet = plate_a();
    let mut images = vec![1_073_741_824.0; 3 * (sheet.point_count() + 1)];
    let last = images.len() - 3;
    images[last..].fill(-1_073_741_824.0);
    assert_eq!(status(MODEL.image_pick(&sheet.bytes(), 0, &images)), 0);
}
