//! The exported calls beside the original, on the same sheets in one run:
//! `cargo run --release --offline --bin bench_calls`
//! `--quick` takes fewer rounds; with `--bar` a missed bar is status 1, as differing
//! bits always are.

#[cfg(not(facepoint_picker))]
fn main() {
    eprintln!("no archive with the three calls: run `rt lib` in crates/capi");
    std::process::exit(2);
}

#[cfg(facepoint_picker)]
fn main() {
    use oracle::archive::made;
    use oracle::bench::Report;

    let (mut rounds, mut bar) = (25, false);
    for flag in std::env::args().skip(1) {
        match flag.as_str() {
            "--quick" => rounds = 3,
            "--bar" => bar = true,
            _ => {
                eprintln!("usage: bench_calls [--quick] [--bar]");
                std::process::exit(2);
            }
        }
    }
    let report = Report::new(&made, rounds);
    print!("{report}");
    if !report.bits_agree() || (bar && !report.meets_bar()) {
        std::process::exit(1);
    }
}
