//! Prints the point of each sheet file that it is given, one line each:
//!
//!     cargo run -p facepoint --example pick_files -- ../samples/*.sheet
//!
//! A plane's point is in space; of another surface, which stands on no sheet, it is
//! the chart's. A refusal is an answer, too. A file that is missing, short or too long
//! is named on standard error, and the exit status is then 1.

use std::env::args_os;
use std::ffi::OsStr;
use std::io::{stdout, Write};
use std::process::ExitCode;

use facepoint::{chart, plane_pick, FileError, Kind, Phase, Refusal, Sheet};

fn main() -> ExitCode {
    let paths: Vec<_> = args_os().skip(1).collect();
    if paths.is_empty() {
        eprintln!("usage: pick_files SHEET-FILE...");
        return ExitCode::from(2);
    }
    let mut status = ExitCode::SUCCESS;
    for path in paths {
        match line(&path) {
            Ok(line) => {
                if let Err(why) = writeln!(stdout(), "{line}") {
                    eprintln!("pick_files: standard output: {why}");
                    return ExitCode::FAILURE;
                }
            }
            Err(why) => {
                eprintln!("pick_files: {why}");
                status = ExitCode::FAILURE;
            }
        }
    }
    status
}

fn line(path: &OsStr) -> Result<String, FileError> {
    let sheet = Sheet::from_file(path)?;
    let answer = answer(&sheet).unwrap_or_else(|refusal| refusal.to_string());
    Ok(format!("{}: {answer}", path.display()))
}

fn answer(sheet: &Sheet) -> Result<String, Refusal> {
    let kind = sheet.face().map(|face| face.kind);
    if matches!(kind, None | Some(Kind::Plane(_))) {
        let pick = plane_pick(sheet)?;
        let [x, y, z] = pick.point;
        let (clearance, count) = (pick.clearance, pick.count);
        return Ok(format!(
            "x {x} y {y} z {z}, clearance {clearance}, {count} grid points"
        ));
    }
    let again = |refusal| match kind {
        Some(Kind::Torus) => chart(sheet, Phase::One),
        _ => Err(refusal),
    };
    let chart = chart(sheet, Phase::Zero).or_else(again)?;
    let [u, v] = chart.uv;
    let (clearance, count) = (chart.clearance, chart.count);
    Ok(format!(
        "u {u} v {v}, clearance {clearance}, {count} grid points"
    ))
}
