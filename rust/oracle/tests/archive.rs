//! The proved leaves against the hardware's root and Rust's round, and what the archive
//! wants of the C library. Nothing is tested where the archive is absent; rust/calls
//! looks for it.
#![cfg(facepoint_archive)]

use std::process::Command;
use std::thread;

use oracle::archive;
use oracle::rng::Rng;
use oracle::vectors::{root_arguments, round_arguments};

/// Random arguments for each leaf and each thread.
const ARGUMENTS: usize = 2_000_000;

fn same(x: f64, ours: f64, theirs: f64) {
    let equal = ours.to_bits() == theirs.to_bits() || (ours.is_nan() && theirs.is_nan());
    assert!(equal, "{:016X}: {ours:?}, hardware {theirs:?}", x.to_bits());
}

fn root_at(x: f64) {
    same(x, archive::root(x), x.sqrt());
}

fn round_at(x: f64) {
    same(x, archive::round(x), x.round());
}

/// Any bits, halves and numbers of a chart's size.
fn random(rng: &mut Rng) -> [f64; 3] {
    let half = (rng.bits() >> rng.whole(12, 63)) as f64 + 0.5;
    [
        f64::from_bits(rng.bits()),
        half,
        rng.between(-1000.0, 1000.0),
    ]
}

#[test]
fn leaves_equal_the_hardware_on_the_vectors() {
    root_arguments().into_iter().for_each(root_at);
    round_arguments().into_iter().for_each(round_at);
}

#[test]
fn leaves_equal_the_hardware_on_random_arguments() {
    let work = |seed: u64| {
        let mut rng = Rng::new(seed);
        for _ in 0..ARGUMENTS / 3 {
            for x in random(&mut rng) {
                root_at(x);
                root_at(x.abs());
                round_at(x);
                round_at(-x);
            }
        }
    };
    let workers: Vec<_> = (0..2)
        .map(|seed| thread::spawn(move || work(seed)))
        .collect();
    for worker in workers {
        worker.join().expect("the leaves equal the hardware");
    }
}

/// The two that header, README and rust/facepoint name. Which of memset and memcpy
/// there is a call of is the compiler's choice.
#[test]
fn the_archive_calls_at_most_memset_and_memcpy() {
    let nm = Command::new("nm").args(["-u", env!("ARCHIVE")]).output();
    let nm = nm.expect("nm, which comes with the linker");
    assert!(nm.status.success());
    let said = String::from_utf8_lossy(&nm.stdout);
    let undefined: Vec<&str> = said
        .lines()
        .filter_map(|line| line.trim().strip_prefix("U "))
        .collect();
    assert!(undefined.contains(&"memset"), "{undefined:?}");
    let is_named = |name: &&str| ["memset", "memcpy"].contains(name);
    assert!(undefined.iter().all(is_named), "{undefined:?}");
}
