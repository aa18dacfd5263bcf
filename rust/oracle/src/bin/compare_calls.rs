//! Holds the proved calls against model and original on the calls of so many
//! seeds, and prints how often each thing came up; a difference is a panic:
//! `cargo run --release --offline --bin compare_calls -- 140000`

#[cfg(not(facepoint_picker))]
fn main() {
    eprintln!("no archive with the three calls: run `rt lib` in crates/capi");
    std::process::exit(2);
}

#[cfg(facepoint_picker)]
fn main() {
    use oracle::archive::made;
    use oracle::convention::compare_seed;
    use oracle::tally::over_seeds;

    let seeds = std::env::args().nth(1).and_then(|text| text.parse().ok());
    let Some(seeds) = seeds else {
        eprintln!("usage: compare_calls SEEDS");
        std::process::exit(2);
    };
    let tally = over_seeds(seeds, |seed, tally| compare_seed(&made, seed, tally));
    tally.print();
    println!(
        "no difference in {} calls of {seeds} seeds",
        tally.of("calls")
    );
}
