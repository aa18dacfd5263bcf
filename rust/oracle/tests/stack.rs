//! Every exported call on the stack that is promised for it. A call that takes more
//! ends its process, so a child makes them. Nothing is tested where the archive is
//! absent.
#![cfg(all(facepoint_picker, facepoint_after))]

use std::os::unix::process::ExitStatusExt;
use std::process::{Command, Output};

use facepoint_calls::STACK;

const CALLS: [&str; 11] = [
    "chart",
    "image_pick",
    "plane_pick",
    "sample_parameter",
    "direction",
    "spherical_triangle",
    "point_on",
    "cylinder_point",
    "placed",
    "root",
    "round",
];

/// Makes every call with so much stack.
fn child(bytes: usize) -> (Output, Vec<String>) {
    let mut child = Command::new(env!("CARGO_BIN_EXE_measure_stack"));
    let output = child
        .arg(bytes.to_string())
        .output()
        .expect("a program that runs");
    let said = String::from_utf8_lossy(&output.stdout);
    let said = said.lines().map(str::to_owned).collect();
    (output, said)
}

#[test]
fn every_call_ends_on_the_promised_stack() {
    let (output, said) = child(STACK);
    let last = said.last().map_or("nothing", |line| line);
    let status = output.status;
    assert!(status.success(), "{status} with {STACK} bytes at {last}");
    for call in CALLS {
        let start = format!("{call}: ");
        assert!(said.iter().any(|line| line.starts_with(&start)), "{call}");
    }
    for kind in 0..=6 {
        for phase in 0..=u32::from(kind == 4) {
            for sheet in ["16 rings of 8", "1 ring of 128", "1 ring of 16"] {
                let on = format!("{sheet}, kind {kind}, phase {phase}");
                let made = |call: &str| said.contains(&format!("{call}: {on}"));
                assert!(made("chart") && made("image_pick"), "{on}");
            }
        }
    }
}

/// The child's stack does end where it is told: a call that takes more is noticed.
#[test]
fn too_small_a_stack_ends_the_child() {
    let (output, said) = child(16 * 1024);
    let killed = output.status.signal().is_some();
    assert!(killed, "{}: {said:?}", output.status);
}
