//! The sample sheets: the committed files are what `make_samples` writes, model and
//! original agree on them, and document 01's own numbers are there.

use std::fs;
use std::path::Path;

use oracle::compare::{difference, original_run};
use oracle::generate::Case;
use oracle::model::{Answer, MODEL};
use oracle::samples::{line, panel, samples};
use oracle::surface::Surface;

fn committed(name: &str, extension: &str) -> Vec<u8> {
    let folder = Path::new(env!("CARGO_MANIFEST_DIR")).join("../../samples");
    fs::read(folder.join(name).with_extension(extension)).expect("a committed sample")
}

#[test]
fn files_are_what_make_samples_writes() {
    for sample in samples() {
        let bytes = sample.sheet.bytes();
        assert!(committed(sample.name, "sheet") == bytes, "{}", sample.name);
        let line = line(&MODEL.plane_pick(&bytes));
        assert!(committed(sample.name, "line") == line.as_bytes(), "{line}");
    }
}

#[test]
fn original_agrees() {
    for sample in samples() {
        let case = Case {
            family: "sample",
            surface: Surface::Plane(sample.sheet.plane),
            sheet: sample.sheet,
            phase: 0,
        };
        let run = original_run(&case);
        assert_eq!(difference(&case, &run, MODEL), None, "{}", sample.name);
    }
}

/// Document 01's plates; the clearance of B is root(18/1024).
#[test]
fn plates_have_the_documents_lines() {
    let lines = ["plate-a", "plate-b", "plate-c"].map(|name| committed(name, "line"));
    let [a, b, c] = lines.map(|line| String::from_utf8(line).expect("text"));
    let half = "3FE0000000000000";
    assert_eq!(a, format!("0 {half} {half} 0000000000000000 {half} 961\n"));
    let (place, clearance) = (0.15625f64.to_bits(), (18.0f64 / 1024.0).sqrt().to_bits());
    assert_eq!(
        b,
        format!("0 {place:016X} {place:016X} 0000000000000000 {clearance:016X} 705\n")
    );
    assert_eq!(c, "14\n");
}

/// The panel is what its page says: nine rings, true deviations, and a point on
/// its plane that keeps clear of the trims.
#[test]
fn panel_has_a_point() {
    let sheet = panel();
    assert_eq!(sheet.rings.len(), 9);
    let deviation = sheet.coedges().map(|c| c.deviation).fold(0.0, f64::max);
    assert!(deviation > 0.0 && deviation < 1e-4, "{deviation}");
    let Answer::Point { x, y, z, .. } = MODEL.plane_pick(&sheet.bytes()) else {
        panic!("refused");
    };
    let [a, b, c] = sheet.plane.origin;
    let [k, l, m] = sheet.plane.normal;
    let off = (x - a) * k + (y - b) * l + (z - c) * m;
    assert!(off.abs() < 1e-12, "{off} off its plane");
}
