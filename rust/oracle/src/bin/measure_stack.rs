//! The least stack on which each exported call ends:
//! `cargo run --release --offline --bin measure_stack`
//! It is found by bisection, in child processes, since a stack that is too small ends
//! the process. A child is this program with BYTES and, for one call alone, its name:
//! it makes the calls with so much stack and says each before it is made.

#[cfg(not(all(facepoint_picker, facepoint_after)))]
fn main() {
    eprintln!("no archive with all calls: run `rt lib` in crates/capi");
    std::process::exit(2);
}

#[cfg(all(facepoint_picker, facepoint_after))]
fn main() {
    let words: Vec<String> = std::env::args().skip(1).collect();
    let words: Vec<&str> = words.iter().map(String::as_str).collect();
    let bytes = words.first().map(|bytes| bytes.parse());
    match (bytes, &words[..]) {
        (None, _) => measure::least_of_each(),
        (Some(Ok(bytes)), [_]) => measure::make(bytes, None),
        (Some(Ok(bytes)), [_, call]) => measure::make(bytes, Some(call)),
        _ => {
            eprintln!("usage: measure_stack [BYTES [CALL]]");
            std::process::exit(2);
        }
    }
}

#[cfg(all(facepoint_picker, facepoint_after))]
mod measure {
    use std::env;
    use std::os::unix::process::ExitStatusExt;
    use std::process::{exit, Command, Stdio};

    use oracle::stack::trials;

    const STEP: usize = 1024;
    /// More than any call takes.
    const MOST: usize = 1024 * 1024;

    /// The calls, or one of them, with so much stack.
    pub fn make(bytes: usize, call: Option<&str>) {
        let mut made = 0;
        for mut trial in trials() {
            if call.is_some_and(|call| call != trial.call) {
                continue;
            }
            println!("{}: {}", trial.call, trial.what);
            if !trial.on_stack_of(bytes) {
                eprintln!("{}: {}: another answer", trial.call, trial.what);
                exit(1);
            }
            made += 1;
        }
        println!("{made} calls, each on {bytes} bytes of stack");
    }

    pub fn least_of_each() {
        let mut calls: Vec<String> = trials().into_iter().map(|trial| trial.call).collect();
        calls.sort();
        calls.dedup();
        println!("bytes of stack at the call, in steps of {STEP}");
        for call in calls {
            match least(&call) {
                Some(bytes) => println!("{bytes:8}  {call}"),
                None => println!("  over {MOST}  {call}"),
            }
        }
    }

    /// The least number of steps on which every trial of the call ends.
    fn least(call: &str) -> Option<usize> {
        let (mut short, mut enough) = (0, MOST / STEP);
        if !ends(call, enough * STEP) {
            return None;
        }
        while enough - short > 1 {
            let middle = (short + enough) / 2;
            if ends(call, middle * STEP) {
                enough = middle;
            } else {
                short = middle;
            }
        }
        Some(enough * STEP)
    }

    fn ends(call: &str, bytes: usize) -> bool {
        let program = env::current_exe().expect("this program");
        let mut child = Command::new(program);
        child.args([&bytes.to_string(), call]);
        let status = child.stdout(Stdio::null()).status().expect("a child");
        assert!(
            status.success() || status.signal().is_some(),
            "{call}: {status}"
        );
        status.success()
    }
}
