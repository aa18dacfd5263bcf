//! IEEE vectors for the number leaves: root by the hardware's instruction,
//! round by the Rust standard library. A line is the argument's bits, a space
//! and the answer's bits, 16 capital hexadecimal digits each, and a newline.

use crate::rng::Rng;

/// Lines of each file; random bit patterns fill what the lists leave.
const LINES: usize = 2_200;

const SIGN: u64 = 1 << 63;

/// A NaN's bits are free; files show this one.
const QUIET_NAN: u64 = 0x7FF8_0000_0000_0000;

/// The text of the file for root.
pub fn root_file() -> String {
    lines(&root_arguments(), f64::sqrt)
}

/// The text of the file for round.
pub fn round_file() -> String {
    lines(&round_arguments(), f64::round)
}

pub fn root_arguments() -> Vec<f64> {
    let mut rng = Rng::new(1);
    let mut list = specials();
    subnormals(&mut rng, &mut list);
    squares(&mut rng, &mut list);
    near_ties(&mut rng, &mut list);
    ends_of_binades(&mut list);
    for e in 51..54 {
        list.extend(beside(2.0f64.powi(e)).map(f64::to_bits));
    }
    list.extend((0..60).map(|_| SIGN | rng.bits() >> 1));
    // The root of a negative number is no test beyond those.
    filled(list, || rng.bits() >> 1)
}

pub fn round_arguments() -> Vec<f64> {
    let mut rng = Rng::new(2);
    let mut list = specials();
    let small = (0..100).map(f64::from);
    let powers = (7..53).flat_map(|e| [2.0f64.powi(e), 2.0f64.powi(e) - 1.0]);
    for whole in small.chain(powers) {
        both_signs(beside(whole + 0.5), &mut list);
    }
    for e in 50..55 {
        let power = 2.0f64.powi(e);
        for step in [-1.5, -1.0, -0.5, 0.0, 1.0, 2.0, 2.5] {
            both_signs(beside(power + step), &mut list);
        }
    }
    for _ in 0..60 {
        let whole = (rng.bits() >> rng.whole(13, 50)) as f64;
        both_signs(beside(whole + 0.5), &mut list);
    }
    list.extend((0..150).map(|_| rng.between(-1000.0, 1000.0).to_bits()));
    subnormals(&mut rng, &mut list);
    filled(list, || rng.bits())
}

fn lines(arguments: &[f64], answer: fn(f64) -> f64) -> String {
    let line = |x: &f64| {
        let y = answer(*x);
        let bits = if y.is_nan() { QUIET_NAN } else { y.to_bits() };
        format!("{:016X} {bits:016X}\n", x.to_bits())
    };
    arguments.iter().map(line).collect()
}

/// Each pattern once, in order, then patterns that `more` gives.
fn filled(list: Vec<u64>, mut more: impl FnMut() -> u64) -> Vec<f64> {
    let mut seen = std::collections::BTreeSet::new();
    let mut kept: Vec<u64> = list.into_iter().filter(|bits| seen.insert(*bits)).collect();
    assert!(kept.len() < LINES, "{} patterns leave no room", kept.len());
    while kept.len() < LINES {
        let bits = more();
        if seen.insert(bits) {
            kept.push(bits);
        }
    }
    kept.into_iter().map(f64::from_bits).collect()
}

/// The number and its two neighbours.
fn beside(x: f64) -> [f64; 3] {
    [x.next_down(), x, x.next_up()]
}

fn both_signs(numbers: [f64; 3], list: &mut Vec<u64>) {
    for x in numbers {
        list.extend([x.to_bits(), x.to_bits() | SIGN]);
    }
}

/// Zeros, ones, the largest, infinities and NaNs quiet and signalling.
fn specials() -> Vec<u64> {
    let mut list = Vec::new();
    for x in [
        0.5,
        1.0,
        1.5,
        2.0,
        2.5,
        f64::MIN_POSITIVE,
        f64::MAX.next_down(),
    ] {
        both_signs(beside(x), &mut list);
    }
    let infinity = f64::INFINITY.to_bits();
    let payloads = [
        1,
        2,
        0x1234_5678_9ABC,
        1 << 50,
        1 << 51,
        (1 << 51) + 1,
        (1 << 52) - 1,
    ];
    let nans = payloads.map(|payload| infinity | payload);
    for bits in [0, 1, infinity].into_iter().chain(nans) {
        list.extend([bits, bits | SIGN]);
    }
    list
}

fn subnormals(rng: &mut Rng, list: &mut Vec<u64>) {
    let mantissa = (1 << 52) - 1;
    for e in 0..52 {
        list.extend([1 << e, (1 << e) + 1, (2 << e) - 1]);
    }
    list.extend([mantissa, mantissa - 1, mantissa + 1]);
    list.extend((0..60).map(|_| rng.bits() & mantissa));
    list.extend((0..10).map(|_| SIGN | rng.bits() & mantissa));
}

/// Exact squares and their neighbours, small, long and far from 1.
fn squares(rng: &mut Rng, list: &mut Vec<u64>) {
    for k in 1..=60 {
        list.extend(beside(f64::from(k * k)).map(f64::to_bits));
    }
    for _ in 0..80 {
        let k = rng.whole(1 << 25, (1 << 26) - 1) as f64;
        let power = 2.0f64.powi(rng.whole(0, 900) as i32 - 450);
        list.extend(beside(k * power * (k * power)).map(f64::to_bits));
    }
}

/// Arguments whose roots lie nearest to the middle between two numbers.
///
/// A middle is an odd M of 54 bits. Its square is r more than a multiple of 2^k,
/// and (M×M − r)/2^k has 53 bits for k = 54 or 55. Its root, scaled, is M save
/// for r/(2M): for small r no argument of that binade comes nearer to a tie. M
/// follows from r bit by bit, for every r that is 1 modulo 8.
fn near_ties(rng: &mut Rng, list: &mut Vec<u64>) {
    for k in [54, 55] {
        for r in (-199..=201).step_by(8) {
            let s = root_modulo(r, k);
            let modulus = 1i128 << k;
            let half = modulus >> 1;
            let middles = [
                s,
                modulus - s,
                (s + half) % modulus,
                (modulus - s + half) % modulus,
            ];
            for middle in middles {
                let x = (middle * middle - r) >> k;
                if middle >> 53 == 1 && x >> 52 == 1 {
                    // x × 2^k scaled by an even power has the same digits.
                    let exponent = (k as i32 & 1) + 2 * (rng.below(500) as i32 - 250);
                    list.push((x as f64 * 2.0f64.powi(exponent)).to_bits());
                }
            }
        }
    }
}

/// An odd s with s×s ≡ r modulo 2^k, where r ≡ 1 modulo 8.
fn root_modulo(r: i128, k: u32) -> i128 {
    let mut s = 1i128;
    for bit in 3..k {
        if (s * s - r) >> bit & 1 == 1 {
            s += 1 << (bit - 1);
        }
    }
    s
}

/// The first number of binades with its neighbours, and the last number; odd and
/// even exponents. An even power of two is an exact square.
fn ends_of_binades(list: &mut Vec<u64>) {
    for exponent in (1..2046).step_by(17) {
        let first = exponent << 52;
        list.extend([first - 1, first, first + 1, first + (1 << 52) - 1]);
    }
}
