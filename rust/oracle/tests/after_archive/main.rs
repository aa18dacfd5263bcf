//! The six calls after the picker over the C convention against model and original,
//! bit for bit. The archive that `rt lib` in crates/capi writes is judged where build.rs
//! finds one; the comparison itself is judged always, by stubs with planted faults.

#[cfg(facepoint_after)]
mod archive;
mod reached;
mod stubs;

#[cfg(all(facepoint_archive, not(facepoint_after)))]
#[test]
fn the_archive_exports_the_calls() {
    panic!("the archive that build.rs found has not all six calls: run 'rt lib' in crates/capi");
}
