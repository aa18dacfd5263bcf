//! Holds the proved calls after the picker against model and original, one input of
//! each call a seed, and prints how often each thing came up; a difference is a panic:
//! `cargo run --release --offline --bin compare_after -- 170000`

#[cfg(not(facepoint_after))]
fn main() {
    eprintln!("no archive with the six calls: run `rt lib` in crates/capi");
    std::process::exit(2);
}

#[cfg(facepoint_after)]
fn main() {
    use oracle::after::convention::compare_seed;
    use oracle::archive::after::made;
    use oracle::tally::over_seeds;

    let seeds = std::env::args().nth(1).and_then(|text| text.parse().ok());
    let Some(seeds) = seeds else {
        eprintln!("usage: compare_after SEEDS");
        std::process::exit(2);
    };
    let tally = over_seeds(seeds, |seed, tally| compare_seed(&made, seed, tally));
    tally.print();
    println!("no difference in the calls of {seeds} seeds");
}
