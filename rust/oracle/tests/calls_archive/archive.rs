//! The proved calls themselves.

use oracle::archive::made;
use oracle::convention::compare_seed;
use oracle::tally::over_seeds;

use super::reached::assert_reached;

const SEEDS: u64 = 8_000;

#[test]
fn archive_model_and_original_agree() {
    let tally = over_seeds(SEEDS, |seed, tally| compare_seed(&made, seed, tally));
    tally.print();
    assert!(tally.of("judged by the original") >= 20_000);
    assert_reached(&tally, SEEDS);
}
