//! How often the inputs of many seeds reach each thing.

use oracle::after::Call;
use oracle::tally::Tally;

/// Everything came up as often as so many seeds should bring it; the numbers are for
/// 40,000 of them.
pub fn assert_reached(tally: &Tally, seeds: u64) {
    let at_least = |times: u64, what: &str| {
        let (count, wanted) = (tally.of(what) as u64, times * seeds / 40_000);
        assert!(count >= wanted, "{what}: {count}, wanted {wanted}");
    };
    for call in Call::ALL {
        at_least(40_000, &format!("{call}: calls"));
        at_least(20_000, &format!("{call}: judged by the original"));
        at_least(10_000, &format!("{call}: status 0"));
        for number in call.refusals() {
            at_least(2_000, &format!("{call}: status {number}"));
        }
    }
    for answer in [[0, 0], [0, 1], [1, 0], [1, 1]] {
        let [reverse, keep] = answer;
        at_least(2_000, &format!("direction: reverse {reverse}, keep {keep}"));
    }
    for call in [Call::SampleParameter, Call::PointOn, Call::Placed] {
        at_least(10, &format!("{call} answers a -0"));
    }
}
