//! The proved leaves beside the hardware's square root and Rust's `f64::round`:
//! nanoseconds a call on the same inputs in one run, and ratios.

#[cfg(not(facepoint_archive))]
fn main() {
    println!("no archive to measure: run `rt lib` in crates/capi");
}

#[cfg(facepoint_archive)]
fn main() {
    bench::main();
}

#[cfg(facepoint_archive)]
mod bench {
    use std::hint::black_box;
    use std::time::Instant;

    use oracle::archive;
    use oracle::rng::Rng;

    const INPUTS: usize = 4_096;
    const PASSES: usize = 25;
    const REPETITIONS: usize = 15;

    // Behind a call as the archive's functions are, so that ratios compare like
    // with like.
    #[inline(never)]
    extern "C" fn called_root(x: f64) -> f64 {
        x.sqrt()
    }

    #[inline(never)]
    extern "C" fn called_round(x: f64) -> f64 {
        x.round()
    }

    pub fn main() {
        println!("ns a call, least of {REPETITIONS} repetitions over {INPUTS} inputs");
        println!("hardware and std are called through extern \"C\" functions that are never");
        println!("inlined, as the archive's are; the inlined column has no call\n");
        let mut rng = Rng::new(3);
        println!("root                      hardware   inlined  facepoint     ratio");
        for (name, input) in root_inputs() {
            let inputs = list(&mut rng, input);
            row(name, &inputs, |x| called_root(x), f64::sqrt, archive::root);
        }
        println!("\nround                          std   inlined  facepoint     ratio");
        for (name, input) in round_inputs() {
            let inputs = list(&mut rng, input);
            row(
                name,
                &inputs,
                |x| called_round(x),
                f64::round,
                archive::round,
            );
        }
    }

    type Input = fn(&mut Rng) -> f64;

    fn root_inputs() -> [(&'static str, Input); 4] {
        [
            ("random positive normals", |rng| {
                let exponent = rng.whole(1, 2046) as u64;
                f64::from_bits(exponent << 52 | rng.bits() >> 12)
            }),
            ("exact squares", |rng| {
                let k = rng.below(1 << 26) as f64;
                k * k
            }),
            ("subnormals", |rng| f64::from_bits(rng.bits() >> 12)),
            ("0 to 1000", |rng| rng.between(0.0, 1000.0)),
        ]
    }

    fn round_inputs() -> [(&'static str, Input); 4] {
        [
            ("random normals", |rng| {
                let exponent = rng.whole(1, 2046) as u64;
                f64::from_bits((rng.bits() & 1) << 63 | exponent << 52 | rng.bits() >> 12)
            }),
            ("small halves", |rng| rng.below(200) as f64 - 99.5),
            ("turns, -2 to 2", |rng| rng.between(-2.0, 2.0)),
            ("-1000 to 1000", |rng| rng.between(-1000.0, 1000.0)),
        ]
    }

    fn list(rng: &mut Rng, input: Input) -> Vec<f64> {
        (0..INPUTS).map(|_| input(rng)).collect()
    }

    fn row(
        name: &str,
        inputs: &[f64],
        called: impl Fn(f64) -> f64,
        inlined: impl Fn(f64) -> f64,
        ours: impl Fn(f64) -> f64,
    ) {
        let bits = |x: f64| if x.is_nan() { u64::MAX } else { x.to_bits() };
        let differ = inputs.iter().find(|x| bits(called(**x)) != bits(ours(**x)));
        if let Some(x) = differ {
            println!("{name:24} answers differ at {:016X}: no ratio", x.to_bits());
            return;
        }
        let theirs = nanoseconds(inputs, &called);
        let bare = nanoseconds(inputs, inlined);
        let ours = nanoseconds(inputs, ours);
        let ratio = ours / theirs;
        println!("{name:24} {theirs:9.2} {bare:9.2} {ours:10.2} {ratio:9.2}");
    }

    fn nanoseconds(inputs: &[f64], call: impl Fn(f64) -> f64) -> f64 {
        let repetition = || {
            let start = Instant::now();
            let mut all = 0;
            for _ in 0..PASSES {
                for x in black_box(inputs) {
                    all ^= call(*x).to_bits();
                }
            }
            black_box(all);
            start.elapsed().as_nanos() as f64 / (PASSES * inputs.len()) as f64
        };
        (0..REPETITIONS)
            .map(|_| repetition())
            .fold(f64::INFINITY, f64::min)
    }
}
