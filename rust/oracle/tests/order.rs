//! The order of a sheet's rings changes no status, point, clearance or count.

use oracle::call::Given;
use oracle::generate::{case, reordered, Case};
use oracle::model::MODEL;
use oracle::rng::Rng;
use oracle::sheet::{Sheet, PLANE};

/// The images of the chart's written points on the case's surface, or zeros.
fn images(case: &Case) -> Vec<f64> {
    let mut output = vec![0.0; 2 * case.sheet.point_count()];
    let chart = MODEL.chart(&case.sheet.bytes(), case.phase, &mut output);
    let (_, [u, v, ..]) = chart.numbers();
    output.extend([f64::from_bits(u), f64::from_bits(v)]);
    let image = |p: &[f64]| case.surface.point(p[0], p[1]).unwrap_or([0.0; 3]);
    output.chunks_exact(2).flat_map(image).collect()
}

fn same_in_any_order(seed: u64, change: fn(&mut Rng, &mut Sheet)) {
    let mut rng = Rng::new(seed);
    let mut case = case(seed);
    let images = images(&case);
    change(&mut rng, &mut case.sheet);
    let calls = [
        Given::chart(&case.sheet, case.phase),
        Given::image_pick(&case.sheet, case.phase, &images),
        Given::plane_pick(&case.sheet),
    ];
    for given in calls {
        let before = given.left_by(MODEL);
        let after = reordered(&mut rng, &given).left_by(MODEL);
        let same = (before.status, before.numbers) == (after.status, after.numbers);
        assert!(same, "seed {seed}: {before:?}, reordered {after:?}");
    }
}

#[test]
fn rings_in_another_order_give_the_same_answers() {
    let several = (0..3_000).filter(|seed| case(*seed).sheet.rings.len() > 1);
    let seeds: Vec<u64> = several.collect();
    assert!(seeds.iter().any(|seed| case(*seed).sheet.kind == PLANE));
    assert!(seeds.len() >= 1_000);
    std::thread::scope(|scope| {
        for part in seeds.chunks(seeds.len().div_ceil(2)) {
            scope.spawn(|| {
                part.iter()
                    .for_each(|seed| same_in_any_order(*seed, |_, _| ()))
            });
        }
    });
}

/// A sheet that is refused by 6 or 7 is refused by the same in any order.
#[test]
fn refused_sheets_are_refused_alike() {
    for seed in 0..400 {
        same_in_any_order(seed, |rng, sheet| {
            let ring = rng.below(sheet.rings.len());
            sheet.rings[ring].0[0].deviation = rng.pick(&[f64::NAN, 0.002, -1.0]);
        });
        same_in_any_order(seed, |rng, sheet| {
            if sheet.rings.len() < 16 {
                sheet.rings.push(Default::default());
            }
            let ring = rng.below(sheet.rings.len());
            sheet.rings[ring].points_mut().for_each(|p| p[0] = f64::NAN);
        });
    }
}
