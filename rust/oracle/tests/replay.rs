//! The committed files of answers to be replayed: model and original say the same
//! of their own sheets and images, and they hold what they are there for. They are
//! not made again: their sines may come out otherwise on another machine.

use std::fs;
use std::path::Path;

use oracle::call::{Call, Given, Judge};
use oracle::compare::UNWRITTEN;
use oracle::model::{Fault, Model, MODEL};
use oracle::replay::{file, file_name, read, Record};
use oracle::sheet::{Ring, Sheet, ABSENT, CONE, CYLINDER, FORWARD, PLANE, REVERSED, TORUS};

const MINUS_ZERO: u64 = 1 << 63;
/// The greatest magnitude of an image's coordinate.
const FARTHEST_IMAGE: f64 = 1_073_741_824.0;

fn committed_file(call: Call) -> Vec<u8> {
    let data = Path::new(env!("CARGO_MANIFEST_DIR")).join("../../crates/replay/data");
    fs::read(data.join(file_name(call))).expect("the committed file; make_replay writes one")
}

fn committed(call: Call) -> Vec<Record> {
    read(call, &committed_file(call)).expect("records to the end")
}

/// What a record's call should leave behind, and whether the original judged it.
fn judged(record: &Record) -> (Record, bool) {
    let judge = Judge::of(&record.given, record.left.status);
    let left = record.given.judged(&judge).expect("model and judge agree");
    let given = record.given.clone();
    (Record { given, left }, matches!(judge, Judge::Original(_)))
}

/// The sheet where its layout reads.
fn sheet(record: &Record) -> Option<Sheet> {
    Sheet::read(&record.given.sheet)
}

/// The sheet where the call answers.
fn answered(record: &Record) -> Option<Sheet> {
    sheet(record).filter(|_| record.left.status == 0)
}

/// The length of a list that passes, and how much longer the record's is.
fn longer(record: &Record) -> Option<i64> {
    let points = sheet(record)?.point_count();
    let right = match record.given.call {
        Call::Chart => 2 * points,
        Call::ImagePick => 3 * (points + 1),
        Call::PlanePick => 0,
    };
    Some(record.given.list.len() as i64 - right as i64)
}

/// The status of the record's call with a list that passes.
fn status_with_a_list(record: &Record) -> Option<u32> {
    let sheet = sheet(record)?;
    let given = match record.given.call {
        Call::Chart => Given::chart(&sheet, record.given.phase),
        _ => {
            let images = vec![0.0; 3 * (sheet.point_count() + 1)];
            Given::image_pick(&sheet, record.given.phase, &images)
        }
    };
    Some(given.left_by(MODEL).status)
}

/// Asserts that at least so many records are of a sort.
fn at_least(wanted: usize, what: &str, records: &[Record], sort: impl Fn(&Record) -> bool) {
    let count = records.iter().filter(|record| sort(record)).count();
    println!("{count:6}  {what}");
    assert!(count >= wanted, "{what}: {count}, wanted {wanted}");
}

// Every file.

#[test]
fn model_and_original_give_the_recorded_answers() {
    for call in Call::ALL {
        let mut by_original = 0;
        for (index, record) in committed(call).iter().enumerate() {
            let (expected, original) = judged(record);
            assert!(*record == expected, "{call}, record {index}: {record:?}");
            by_original += usize::from(original);
        }
        println!("{call}: {by_original} judged by the original");
        assert!(by_original >= 500);
    }
}

/// One bit of any number of an answer is noticed.
#[test]
fn a_changed_answer_is_noticed() {
    let changes: [fn(&mut Record); 4] = [
        |record| record.left.numbers[0] ^= 1,
        |record| record.left.numbers[3] ^= 1,
        |record| record.left.numbers[4] = 1.0f64.to_bits(),
        |record| {
            let last = record.left.list.last_mut();
            last.into_iter().for_each(|bits| *bits ^= 1);
        },
    ];
    for call in Call::ALL {
        let records = committed(call);
        let record = records.iter().find(|record| record.left.status == 0);
        let record = record.expect("an answer");
        for change in changes {
            let mut changed = record.clone();
            change(&mut changed);
            assert!(changed == *record || changed != judged(&changed).0);
        }
    }
}

#[test]
fn the_files_have_their_form_and_their_limits() {
    for call in Call::ALL {
        let bytes = committed_file(call);
        let records = committed(call);
        let same = file(&records) == bytes;
        assert!(same, "the form of {call} is read and written alike");
        assert!(bytes.len() < 12_000_000, "{} bytes", bytes.len());
        println!("{call}: {} bytes, {} records", bytes.len(), records.len());
        for record in &records {
            assert!(record.given.sheet.len() <= 40_000);
            assert!(record.given.list.len() <= 6_600);
        }
        at_least(500, "answers", &records, |record| record.left.status == 0);
    }
}

/// What the proved program has to print counts what the files hold.
#[test]
fn the_programs_output_counts_the_files() {
    let stdout = Path::new(env!("CARGO_MANIFEST_DIR")).join("../../crates/replay/stdout");
    let expected =
        fs::read_to_string(stdout).expect("the output that the program replay must write");
    let lines = Call::ALL.map(|call| {
        let records = committed(call);
        let points = records.iter().filter(|record| record.left.status == 0);
        let (name, answers, points) = (file_name(call), records.len(), points.count());
        format!("{name}: {answers} answers, {points} points, 0 wrong\n")
    });
    // The calls after the picker come behind; tests/after_replay.rs counts theirs.
    assert!(expected.starts_with(&lines.concat()));
}

#[test]
fn every_status_is_there() {
    for call in Call::ALL {
        let records = committed(call);
        for status in call.refusals() {
            let what = format!("{call}, status {status}");
            at_least(8, &what, &records, |record| record.left.status == *status);
        }
    }
}

/// Each kind, sense and phase, with one ring and with several.
#[test]
fn every_sort_of_sheet_is_answered() {
    for call in Call::ALL {
        let records = committed(call);
        let kinds = if call == Call::PlanePick {
            0..=0
        } else {
            0..=6
        };
        for kind in kinds {
            for sense in [ABSENT, FORWARD, REVERSED] {
                for phase in 0..=u32::from(kind == TORUS) {
                    for several in [false, true] {
                        let what = format!("{call}: {kind}, {sense}, {phase}, {several}");
                        at_least(4, &what, &records, |record| {
                            answered(record).is_some_and(|sheet| {
                                (sheet.kind, sheet.sense) == (kind, sense)
                                    && record.given.phase == phase
                                    && (sheet.rings.len() > 1) == several
                            })
                        });
                    }
                }
            }
        }
    }
}

/// The ring blocks of a sheet, each as the sheet of a ring alone.
fn blocks(sheet: &Sheet) -> Vec<Vec<u8>> {
    let alone = |ring: &Ring| Sheet::new(CYLINDER, ABSENT, vec![ring.clone()]).bytes();
    sheet.rings.iter().map(alone).collect()
}

/// Where the second sheet's rings stand in the first; none where one does not.
fn order(first: &Sheet, second: &Sheet) -> Option<Vec<usize>> {
    let (first, second) = (blocks(first), blocks(second));
    let mut order = Vec::new();
    for block in &second {
        let free = |k: &usize| !order.contains(k) && first[*k] == *block;
        order.push((0..first.len()).find(free)?);
    }
    (order.len() == first.len()).then_some(order)
}

/// Whether the second call is the first with its rings in another order.
fn is_reordered(first: &Record, second: &Record) -> bool {
    let (Some(a), Some(b)) = (sheet(first), sheet(second)) else {
        return false;
    };
    first.given.sheet != second.given.sheet
        && order(&a, &b)
            .is_some_and(|order| first.given.reordered(&order).as_ref() == Some(&second.given))
}

#[test]
fn reordered_rings_follow_their_first_order_and_answer_alike() {
    for call in Call::ALL {
        let records = committed(call);
        let mut pairs = [0; 2];
        for pair in records.windows(2).filter(|p| is_reordered(&p[0], &p[1])) {
            let [first, second] = [&pair[0].left, &pair[1].left];
            assert_eq!(first.status, second.status);
            assert_eq!(first.numbers, second.numbers);
            pairs[usize::from(first.status != 0)] += 1;
        }
        println!("{call}: {pairs:?} pairs answered and refused");
        assert!(pairs[0] >= 10 && pairs[1] >= 5);
    }
}

#[test]
fn sheets_are_of_every_length() {
    for call in Call::ALL {
        let records = committed(call);
        let of_length = |length: usize, status: u32| {
            let what = format!("{call}: {length} bytes, status {status}");
            at_least(1, &what, &records, |record| {
                record.given.sheet.len() == length && record.left.status == status
            });
        };
        (0..=8).for_each(|length| of_length(length, 1));
        // With a length field that is right; the largest sheet; a coedge more.
        of_length(8, 5);
        of_length(35_936, 0);
        of_length(35_936 + 280, 6);
    }
}

#[test]
fn phases_that_are_none_are_there() {
    for call in [Call::Chart, Call::ImagePick] {
        for phase in [2, 7, u32::MAX] {
            let what = format!("{call}, phase {phase}");
            at_least(1, &what, &committed(call), |record| {
                record.given.phase == phase && record.left.status == 8
            });
        }
    }
}

/// Zeros of sheets are read without their sign.
#[test]
fn negative_zeros_are_read_as_zeros() {
    for call in Call::ALL {
        let what = format!("{call}, sheets with a -0");
        at_least(4, &what, &committed(call), |record| {
            let Some(mut sheet) = answered(record) else {
                return false;
            };
            assert!(call != Call::Chart || !record.left.list.contains(&MINUS_ZERO));
            let mut coordinates = sheet.points_mut().flatten();
            coordinates.any(|x| x.to_bits() == MINUS_ZERO)
        });
    }
}

/// A replay of a file would show each of these faults.
#[test]
fn faults_show_in_the_files() {
    let of_picks = [
        Fault::PhysicalClearanceReported,
        Fault::DeviationOfFirstRing,
        Fault::PhysicalClearanceAtLimitPasses,
        Fault::AnswerIsFirstImage,
    ];
    let of_planes = [
        Fault::PlaneCrossReversed,
        Fault::PlaneSumReordered,
        Fault::PlanePickOnOther,
    ];
    let of_images = Fault::LISTS
        .iter()
        .filter(|fault| **fault != Fault::PlanePickOnOther);
    let shows = |call: Call, fault: Fault, records: &[Record]| {
        let model = Model::with(fault);
        let shows = records
            .iter()
            .any(|record| record.given.left_by(model) != record.left);
        assert!(shows, "{fault:?} does not show in {call}");
    };
    for call in Call::ALL {
        let records = committed(call);
        let look_at = |fault: &Fault| shows(call, *fault, &records);
        look_at(&Fault::CountOfImprovements);
        match call {
            Call::Chart => {}
            Call::ImagePick => of_picks.iter().chain(of_images.clone()).for_each(look_at),
            Call::PlanePick => of_picks.iter().chain(&of_planes).for_each(look_at),
        }
    }
}

// The chart.

#[test]
fn faces_go_around_both_ways() {
    let records = committed(Call::Chart);
    for (kind, phase) in [(CYLINDER, 0), (CONE, 0), (TORUS, 0), (TORUS, 1)] {
        for turning in [1, -1] {
            let what = format!("around: kind {kind}, phase {phase}, turning {turning}");
            at_least(4, &what, &records, |record| {
                answered(record).is_some_and(|sheet| sheet.kind == kind)
                    && record.given.phase == phase
                    && record.turning() == turning
            });
        }
    }
}

/// Bands of a torus that phase 1 answers and phase 0 finds too wide.
#[test]
fn inner_bands_are_there() {
    at_least(8, "inner bands", &committed(Call::Chart), |record| {
        let mut output = vec![UNWRITTEN; record.given.list.len()];
        let at_0 = MODEL.chart(&record.given.sheet, 0, &mut output);
        record.given.phase == 1 && record.turning() != 0 && at_0.numbers().0 == 11
    });
}

#[test]
fn lists_are_of_every_length() {
    let records = committed(Call::Chart);
    let of_length = |wanted: usize, more: i64, status: u32| {
        let what = format!("lists of 2n + {more}, status {status}");
        at_least(wanted, &what, &records, |record| {
            longer(record) == Some(more) && record.left.status == status
        });
    };
    of_length(100, 0, 0);
    of_length(100, 3, 0);
    of_length(8, -1, 9);
    at_least(100, "tails unwritten", &records, |record| {
        let list = &record.left.list;
        let unwritten = |bits: &u64| *bits == 0x40C8_1C80_0000_0000;
        longer(record) == Some(3) && list[list.len() - 3..].iter().all(unwritten)
    });
    at_least(1, "lists of 2n - 1 on a wide band", &records, |record| {
        longer(record) == Some(-1) && status_with_a_list(record) == Some(11)
    });
    at_least(4, "lists of 0", &records, |record| {
        record.given.list.is_empty() && record.left.status == 9
    });
}

// Image pick.

#[test]
fn image_lists_are_of_every_length() {
    let records = committed(Call::ImagePick);
    for more in [-3, -1, 1, 3] {
        let what = format!("images of 3(n + 1) + {more}");
        at_least(2, &what, &records, |record| {
            longer(record) == Some(more) && record.left.status == 10
        });
    }
    at_least(2, "no images", &records, |record| {
        record.given.list.is_empty() && record.left.status == 10
    });
    for check in 11..=14 {
        let what = format!("wrong images before {check}");
        at_least(2, &what, &records, |record| {
            record.left.status == 10 && status_with_a_list(record) == Some(check)
        });
    }
}

#[test]
fn images_are_at_their_limits() {
    let records = committed(Call::ImagePick);
    let with = |wanted: usize, what: &str, status: u32, sort: fn(f64) -> bool| {
        at_least(wanted, what, &records, |record| {
            let right = longer(record) == Some(0) && record.left.status == status;
            right && record.given.numbers().into_iter().any(sort)
        });
    };
    with(2, "2^30", 0, |x| x == FARTHEST_IMAGE);
    with(2, "-2^30", 0, |x| x == -FARTHEST_IMAGE);
    with(1, "above 2^30", 10, |x| x == FARTHEST_IMAGE.next_up());
    with(1, "below -2^30", 10, |x| x == -FARTHEST_IMAGE.next_up());
    with(1, "NaN", 10, f64::is_nan);
    with(1, "infinity", 10, |x| x == f64::INFINITY);
    with(1, "minus infinity", 10, |x| x == f64::NEG_INFINITY);
    at_least(8, "answers with a -0", &records, |record| {
        record.left.numbers[..3].contains(&MINUS_ZERO)
    });
}

// Plane pick.

#[test]
fn plane_picks_are_refused_off_a_plane() {
    let records = committed(Call::PlanePick);
    at_least(8, "off a plane", &records, |record| {
        sheet(record).is_some_and(|sheet| sheet.kind != PLANE) && record.left.status == 8
    });
}
