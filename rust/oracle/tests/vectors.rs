//! The committed vectors are what `make_vectors` writes, and hold the arguments
//! that a root or a rounding is most likely to get wrong.

use std::collections::BTreeSet;
use std::fs;
use std::path::Path;

use oracle::vectors::{root_arguments, root_file, round_arguments, round_file};

fn committed(name: &str) -> String {
    let folder = Path::new(env!("CARGO_MANIFEST_DIR")).join("../../crates/vectors/data");
    fs::read_to_string(folder.join(name)).expect("a committed file of vectors")
}

fn answer_of(file: &str, argument: f64) -> Option<f64> {
    let wanted = format!("{:016X} ", argument.to_bits());
    let line = file.lines().find(|line| line.starts_with(&wanted))?;
    let bits = u64::from_str_radix(&line[17..], 16).ok()?;
    Some(f64::from_bits(bits))
}

#[test]
fn the_committed_files_are_the_makers() {
    assert!(
        committed("root") == root_file(),
        "run make_vectors for root"
    );
    assert!(
        committed("round") == round_file(),
        "run make_vectors for round"
    );
}

#[test]
fn files_have_the_form_that_readers_expect() {
    for file in [root_file(), round_file()] {
        let lines: Vec<&str> = file.split_inclusive('\n').collect();
        assert!((2_000..=2_400).contains(&lines.len()));
        assert_eq!(lines.iter().collect::<BTreeSet<_>>().len(), lines.len());
        let digit = |b: u8| b.is_ascii_digit() || (b'A'..=b'F').contains(&b);
        for line in lines {
            let bytes = line.as_bytes();
            assert_eq!((bytes.len(), bytes[16], bytes[33]), (34, b' ', b'\n'));
            assert!(bytes[..16].iter().chain(&bytes[17..33]).all(|b| digit(*b)));
        }
    }
}

#[test]
fn rows_of_document_01_are_among_them() {
    let (root, round) = (root_file(), round_file());
    assert_eq!(
        answer_of(&root, 2.0),
        Some(f64::from_bits(0x3FF6_A09E_667F_3BCD))
    );
    assert_eq!(answer_of(&root, f64::from_bits(1)), Some(2.0f64.powi(-537)));
    assert_eq!(answer_of(&round, 2.5), Some(3.0));
    assert_eq!(answer_of(&round, -2.5), Some(-3.0));
    assert_eq!(answer_of(&round, 0.499_999_999_999_999_94), Some(0.0));
}

/// Whether the number and both its neighbours are among the patterns.
fn with_neighbours(patterns: &BTreeSet<u64>, x: f64) -> bool {
    [x.next_down(), x, x.next_up()]
        .iter()
        .all(|y| patterns.contains(&y.to_bits()))
}

fn patterns(arguments: &[f64]) -> BTreeSet<u64> {
    arguments.iter().map(|x| x.to_bits()).collect()
}

#[test]
fn both_files_have_the_ends_of_the_range() {
    for arguments in [root_arguments(), round_arguments()] {
        let all = patterns(&arguments);
        for x in [0.0, -0.0, f64::INFINITY, f64::NEG_INFINITY, f64::MAX] {
            assert!(all.contains(&x.to_bits()), "{x:?}");
        }
        for e in 51..54 {
            assert!(with_neighbours(&all, 2.0f64.powi(e)), "2^{e}");
        }
        let subnormal = arguments.iter().filter(|x| x.is_subnormal()).count();
        assert!(subnormal >= 200, "{subnormal} subnormals");
        assert!(arguments.iter().any(|x| x.is_nan()));
    }
}

#[test]
fn exact_squares_stand_beside_their_neighbours() {
    let arguments = root_arguments();
    let all = patterns(&arguments);
    // Far enough above the subnormals for the fused product to be exact at 0.
    let large = |x: &&f64| x.is_finite() && **x > 1e-250;
    let is_square = |x: &&f64| x.sqrt().mul_add(x.sqrt(), -**x) == 0.0;
    let squares: Vec<&f64> = arguments.iter().filter(large).filter(is_square).collect();
    assert!(squares.len() >= 150, "{} squares", squares.len());
    for x in squares {
        assert!(with_neighbours(&all, *x), "{x:e}");
    }
}

#[test]
fn halves_stand_beside_their_neighbours() {
    let arguments = round_arguments();
    let all = patterns(&arguments);
    let is_half = |x: &&f64| x.abs() < 2.0f64.powi(52) && x.fract().abs() == 0.5;
    let halves: Vec<&f64> = arguments.iter().filter(is_half).collect();
    assert!(halves.len() >= 400, "{} halves", halves.len());
    for x in halves {
        assert!(with_neighbours(&all, *x), "{x:?}");
    }
}
