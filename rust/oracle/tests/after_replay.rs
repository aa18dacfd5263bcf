//! The answers of the calls after the picker that are written to be replayed: model
//! and original say them of the files' own numbers, and the files hold what they are
//! there for. Sines and cosines are in some of the numbers: a file made on another
//! machine may differ, and is as good.

use std::collections::BTreeSet;
use std::fs;
use std::path::{Path, PathBuf};

use oracle::after::replay::{file, read, Record};
use oracle::after::Call;
use oracle::model::MODEL;
use oracle::original::RECORDED;

fn replay() -> PathBuf {
    Path::new(env!("CARGO_MANIFEST_DIR")).join("../../crates/replay")
}

/// The committed file of a call.
fn held(call: Call) -> Vec<u8> {
    let committed = replay().join("data").join(call.to_string());
    fs::read(committed).expect("the committed file; make_replay_after writes one")
}

fn held_records(call: Call) -> Vec<Record> {
    read(call, &held(call)).expect("records to the end")
}

/// The original lacks 16, and the limits of 20 and 22.
fn has_original(record: &Record) -> bool {
    !matches!(record.left.status, 16 | 20 | 22)
}

#[test]
fn model_and_original_give_the_recorded_answers() {
    for call in Call::ALL {
        let records = held_records(call);
        for (index, record) in records.iter().enumerate() {
            let given = &record.given;
            assert_eq!(given.left_by(MODEL), record.left, "{call}, record {index}");
            if has_original(record) {
                let original = given.left_by_original(RECORDED);
                assert_eq!(original, record.left, "{call}, record {index}");
            }
        }
        let by_original = records.iter().filter(|record| has_original(record)).count();
        println!(
            "{call}: {} records, {by_original} by the original",
            records.len()
        );
        assert!(by_original >= 100);
    }
}

#[test]
fn the_files_have_their_form_and_their_limits() {
    let mut bytes = 0;
    for call in Call::ALL {
        let held = held(call);
        let records = held_records(call);
        assert!(
            file(&records) == held,
            "the form of {call} is read and written alike"
        );
        assert!(
            (190..=400).contains(&records.len()),
            "{call}: {}",
            records.len()
        );
        // What crates/cases takes for a record.
        for record in &records {
            let numbers: usize = record.given.lists.iter().map(Vec::len).sum();
            assert!(numbers <= 5_000);
        }
        let statuses: BTreeSet<u32> = records.iter().map(|record| record.left.status).collect();
        let expected = [0].iter().chain(call.refusals());
        assert_eq!(statuses, expected.copied().collect(), "{call}");
        let answered = records.iter().filter(|record| record.left.status == 0);
        assert!(answered.count() >= 60, "{call}");
        bytes += held.len();
    }
    assert!(bytes < 300_000, "{bytes} bytes");
}

/// A file that is cut off has no records.
#[test]
fn a_file_that_is_cut_off_is_none() {
    for call in Call::ALL {
        let held = held(call);
        assert!(read(call, &held[..held.len() - 1]).is_none());
    }
}

/// What the proved program has to print counts what the files hold.
#[test]
fn the_programs_output_counts_the_files() {
    let expected = fs::read_to_string(replay().join("stdout"));
    let lines = Call::ALL.map(|call| {
        let records = held_records(call);
        let answered = records.iter().filter(|record| record.left.status == 0);
        let (calls, answered) = (records.len(), answered.count());
        format!("{call}: {calls} answers, {answered} points, 0 wrong\n")
    });
    // The sheets' calls come first; tests/replay.rs counts theirs.
    let expected = expected.expect("what it must write");
    assert!(expected.ends_with(&lines.concat()));
    assert_eq!(expected.lines().count(), 3 + Call::ALL.len());
}
