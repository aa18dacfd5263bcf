//! The benchmark of the exported calls: its sheets, and that it gives no ratio where
//! bits differ. Calls are stubs here, the archive's own where build.rs finds one.

use std::slice::from_ref;
use std::sync::atomic::{AtomicU32, Ordering};
use std::thread;
use std::time::Duration;

use oracle::bench::sheets::{by_coedges, by_rings, six, six_small, Subject};
use oracle::bench::{Report, Row};
use oracle::call::Call;
use oracle::convention::{Callee, Lent};
use oracle::model::MODEL;
use oracle::plates::{band, dart};
use oracle::sheet::{Sheet, Uv, CYLINDER, FORWARD};
use oracle::surface::Surface;

/// Document 01's calls over the C convention.
fn model(lent: &mut Lent) -> u32 {
    let (sheet, phase, list) = (lent.sheet.lent(), lent.phase, lent.list.lent());
    let answer = match lent.call {
        Call::Chart => MODEL.chart(sheet, phase, list),
        Call::ImagePick => MODEL.image_pick(sheet, phase, list),
        Call::PlanePick => MODEL.plane_pick(sheet),
    };
    let (status, numbers) = answer.numbers();
    let result = lent.result.lent();
    result.copy_from_slice(&numbers.map(f64::from_bits));
    status
}

/// A plane and a curved sheet on which the model is fast enough.
fn small() -> [Subject; 2] {
    let [plate_a, ..] = six();
    let cylinder = Subject {
        name: "cylinder".into(),
        sheet: band(CYLINDER, FORWARD, 0.0, 1.0),
        surface: Surface::Cylinder { radius: 2.0 },
    };
    [plate_a, cylinder]
}

/// Each of the sheets is refused: no row, no ratio.
fn assert_no_ratio(subjects: &[Subject], callee: Callee, found: &str) {
    for subject in subjects {
        let report = Report::of(from_ref(subject), callee, 1);
        let text = report.to_string();
        assert!(!report.bits_agree() && !report.meets_bar(), "{text}");
        assert_eq!(report.rows().count(), 0, "{text}");
        assert_eq!(report.least_ratio(), None, "{text}");
        assert!(text.contains("no ratio: "), "{text}");
        assert!(text.contains(found), "{found}: {text}");
        assert!(!text.contains("least ratio to the original"), "{text}");
    }
}

#[test]
fn equal_bits_get_a_ratio() {
    let report = Report::of(&small(), &model, 1);
    let text = report.to_string();
    assert!(report.bits_agree(), "{text}");
    assert_eq!(report.rows().count(), 2);
    assert!(report.least_ratio().is_some_and(|ratio| ratio > 0.0));
    assert!(text.contains("least ratio to the original as published: "));
    for row in report.rows() {
        assert!(row.shims.least < row.stand_in.least, "{row:?}");
        assert_eq!(row.parts.is_some(), row.name == "cylinder");
    }
}

#[test]
fn small_sheets_are_answered() {
    let report = Report::of(&six_small(), &model, 1);
    assert!(report.bits_agree(), "{report}");
    assert_eq!(report.rows().count(), 6);
    assert!(report.rows().all(|row| row.parts.is_some()));
}

/// A slow call on a small sheet leaves the least ratio as it is, a wrong bit does not.
#[test]
fn small_sheets_have_no_bar() {
    let [plate_a, cylinder] = small();
    let slow = |lent: &mut Lent| {
        if lent.call == Call::Chart {
            thread::sleep(Duration::from_millis(10));
        }
        model(lent)
    };
    let report = Report::of(from_ref(&plate_a), &slow, 1);
    let report = report.with_small(from_ref(&cylinder), &slow);
    assert_eq!((report.rows().count(), report.small().count()), (1, 1));
    let ratio = |row: &Row| row.ratio(row.published).least;
    assert_eq!(report.least_ratio(), report.rows().map(ratio).next());
    assert!(report
        .to_string()
        .contains("\nsmall, without a bar\ncylinder "));

    let wrong = |lent: &mut Lent| model(lent) + u32::from(lent.call == Call::ImagePick);
    let report = Report::of(&[plate_a], &wrong, 1).with_small(&[cylinder], &wrong);
    assert_eq!((report.rows().count(), report.small().count()), (1, 0));
    assert!(!report.bits_agree() && report.least_ratio().is_none());
}

#[test]
fn one_wrong_bit_gets_no_ratio() {
    for place in 0..5 {
        let flipped = |lent: &mut Lent| {
            let status = model(lent);
            let number = &mut lent.result.lent()[place];
            *number = f64::from_bits(number.to_bits() ^ 1);
            status
        };
        assert_no_ratio(&small(), &flipped, &format!("result[{place}] is "));
    }
    let status = |lent: &mut Lent| model(lent) + 14;
    assert_no_ratio(&small(), &status, "status 14, not 0");
}

#[test]
fn a_wrong_written_point_gets_no_ratio() {
    let [_, cylinder] = small();
    let flipped = |lent: &mut Lent| {
        let status = model(lent);
        if lent.call == Call::Chart {
            lent.list.lent()[9] += 1.0;
        }
        status
    };
    assert_no_ratio(&[cylinder], &flipped, "chart: list[9] is ");
}

/// The first call is right, those that are timed are not.
#[test]
fn bits_are_looked_at_after_the_last_round() {
    let [plate_a, _] = small();
    let calls = AtomicU32::new(0);
    let later = |lent: &mut Lent| {
        let status = model(lent);
        let wrong = calls.fetch_add(1, Ordering::Relaxed) > 0;
        lent.result.lent()[3] += f64::from(u8::from(wrong));
        status
    };
    assert_no_ratio(&[plate_a], &later, "result[3] is ");
}

/// A dart whose clearance is above 0.01 by the stand-in, and not by std hypot. It is
/// looked for, since std hypot's bits depend on the C library.
fn dart_between_the_hypots() -> Subject {
    let between = |[u, v]: &Uv| {
        let (a, b) = (0.5 - u, 0.5 - v);
        (a * a + b * b).sqrt() > 0.01 && a.hypot(b) <= 0.01
    };
    let notch = (0..1_000_000).find_map(|k| {
        let a = 0.0055 + 1e-9 * f64::from(k);
        let v = 0.5 - (0.0001 - a * a).sqrt();
        let beside = [v.next_down(), v, v.next_up()].map(|v| [0.5 - a, v]);
        beside.into_iter().find(between)
    });
    let sheet = Sheet::flat(dart(notch.expect("a distance between the hypots")));
    Subject {
        name: "dart".into(),
        surface: Surface::Plane(sheet.plane),
        sheet,
    }
}

#[test]
fn another_answer_as_published_gets_no_ratio() {
    let dart = dart_between_the_hypots();
    assert_no_ratio(&[dart], &model, "the original as published gives None");
}

#[test]
fn the_sheets_have_the_sizes_that_are_asked_for() {
    let segments = |subject: &Subject| subject.segments();
    assert_eq!(
        six().each_ref().map(segments),
        [68, 136, 2176, 2176, 2176, 2176]
    );
    for subject in &six()[2..] {
        let rings = &subject.sheet.rings;
        assert_eq!(rings.len(), 16);
        assert!(rings.iter().all(|ring| ring.0.len() == 8));
    }
    for subject in six_small() {
        assert!((4..=6).contains(&subject.sheet.coedges().count()));
        assert!(!subject.is_plane());
    }
    for series in [by_rings(), by_coedges()] {
        let doubled = [68, 136, 272, 544, 1088, 2176];
        assert_eq!(series.each_ref().map(segments), doubled);
    }
}

#[cfg(facepoint_picker)]
#[test]
fn the_archive_agrees_on_every_sheet() {
    let report = Report::new(&oracle::archive::made, 1);
    print!("{report}");
    assert!(report.bits_agree());
    assert_eq!(report.rows().count(), 6);
    assert_eq!(report.small().count(), 6);
    assert!(report.least_ratio().is_some());
}
