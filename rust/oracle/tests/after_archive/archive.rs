//! The proved calls themselves.

use oracle::after::convention::{compare_seed, found};
use oracle::after::plates::plates;
use oracle::archive::after::made;
use oracle::model::MODEL;
use oracle::tally::over_seeds;

use super::reached::assert_reached;

/// One input of each call.
const SEEDS: u64 = 40_000;

#[test]
fn archive_model_and_original_agree() {
    let tally = over_seeds(SEEDS, |seed, tally| compare_seed(&made, seed, tally));
    tally.print();
    assert_reached(&tally, SEEDS);
}

/// Every refusal and its neighbour.
#[test]
fn the_archive_has_the_plates() {
    for plate in plates() {
        for given in [plate.refused, plate.passes] {
            let difference = found(&made, &given, given.left_by(MODEL));
            assert_eq!(
                difference, None,
                "{}, {}: {given:?}",
                given.call, plate.what
            );
        }
    }
}
