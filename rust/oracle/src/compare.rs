//! Holds the model against a recorded run of the original on the same case.

use crate::generate::Case;
use crate::model::{Answer, Model};
use crate::original::{Run, RECORDED};
use crate::recorder::Stage;
use crate::sheet::PLANE;

/// Stands in the output list before the chart writes, and in its tail after:
/// bits 40C81C8000000000.
pub const UNWRITTEN: f64 = 12345.0;
/// The output list is longer than asked by this much.
const TAIL: usize = 3;

/// The original's run on the case, recorded.
pub fn original_run(case: &Case) -> Run {
    RECORDED.pick(&case.sheet, case.phase, case.surface)
}

/// The first thing in which the model differs from the original's run.
pub fn difference(case: &Case, run: &Run, model: Model) -> Option<String> {
    compare(case, run, model).err()
}

fn compare(case: &Case, run: &Run, model: Model) -> Result<(), String> {
    let sheet = case.sheet.bytes();
    let points = case.sheet.point_count();
    let mut output = vec![UNWRITTEN; 2 * points + TAIL];
    let chart = model.chart(&sheet, case.phase, &mut output);
    compare_chart(&chart, &output, 2 * points, run)?;

    if run.record.stage != Stage::Evaluating {
        let images = images(case, &chart, &output[..2 * points]);
        let pick = model.image_pick(&sheet, case.phase, &images);
        compare_pick("image pick", &pick, run)?;
    }
    if case.sheet.kind == PLANE {
        let pick = model.plane_pick(&sheet);
        compare_pick("plane pick", &pick, run)?;
    }
    Ok(())
}

/// The chart against the recorded evaluations: first the candidate's u and v,
/// then the moved points. Evaluation may have failed before the last of them.
/// `used` places of the output are the points', the rest is its tail.
pub(crate) fn compare_chart(
    chart: &Answer,
    output: &[f64],
    used: usize,
    run: &Run,
) -> Result<(), String> {
    let Answer::Point {
        x,
        y,
        z,
        clearance,
        count,
    } = *chart
    else {
        expect(unwritten(output), || "output written".into())?;
        return compare_refusal("chart", chart, run);
    };
    let Some((candidate, boundary)) = run.calls.split_first() else {
        return Err(format!(
            "chart answers, original stops at {:?}",
            run.record.stage
        ));
    };
    expect_bits("candidate", &[x, y, z], &[candidate[0], candidate[1], 0.0])?;
    compare_grid("chart", clearance, count, run)?;
    let (written, tail) = output.split_at(used);
    let boundary: Vec<f64> = boundary.iter().flatten().copied().collect();
    let complete = run.record.stage != Stage::Evaluating;
    expect(!complete || boundary.len() == written.len(), || {
        format!("{} written, {} evaluated", written.len(), boundary.len())
    })?;
    expect_bits("written points", &written[..boundary.len()], &boundary)?;
    expect(unwritten(tail), || "tail written".into())
}

/// A pick against the run's point, clearance and count.
pub(crate) fn compare_pick(call: &str, pick: &Answer, run: &Run) -> Result<(), String> {
    let Answer::Point {
        x,
        y,
        z,
        clearance,
        count,
    } = *pick
    else {
        return compare_refusal(call, pick, run);
    };
    let Some(point) = run.point else {
        return Err(format!(
            "{call} answers, original stops at {:?}",
            run.record.stage
        ));
    };
    expect_bits(call, &[x, y, z], &point)?;
    compare_grid(call, clearance, count, run)
}

fn compare_grid(call: &str, clearance: f64, count: u32, run: &Run) -> Result<(), String> {
    expect_bits(call, &[clearance], &[run.record.clearance])?;
    expect(count == run.record.covered, || {
        format!("{call} counts {count}, original {}", run.record.covered)
    })
}

/// The original refuses by the check that it reached last.
fn compare_refusal(call: &str, answer: &Answer, run: &Run) -> Result<(), String> {
    let (number, _) = answer.numbers();
    let same = run.point.is_none() && run.record.stage == Stage::Check(number);
    expect(same, || {
        let (point, stage) = (run.point, run.record.stage);
        format!("{call} refuses by {number}, original gives {point:?} after {stage:?}")
    })
}

/// The images of the chart's written points and of its answer; where the chart
/// refuses, a list of the right length.
fn images(case: &Case, chart: &Answer, written: &[f64]) -> Vec<f64> {
    let Answer::Point { x, y, .. } = *chart else {
        return vec![0.0; 3 * (written.len() / 2 + 1)];
    };
    let answered = [x, y];
    let points = written.chunks_exact(2).chain([&answered[..]]);
    points.flat_map(|p| image(case, p[0], p[1])).collect()
}

/// Where evaluation fails the original's run ends; this number is not compared.
fn image(case: &Case, u: f64, v: f64) -> [f64; 3] {
    case.surface.point(u, v).unwrap_or([0.0; 3])
}

/// Whether a part of the output still holds what stood there before the call.
pub(crate) fn unwritten(part: &[f64]) -> bool {
    part.iter().all(|x| x.to_bits() == UNWRITTEN.to_bits())
}

fn expect(holds: bool, message: impl FnOnce() -> String) -> Result<(), String> {
    if holds {
        Ok(())
    } else {
        Err(message())
    }
}

fn expect_bits(what: &str, ours: &[f64], theirs: &[f64]) -> Result<(), String> {
    let different = |(x, y): (&f64, &f64)| x.to_bits() != y.to_bits();
    match ours.iter().zip(theirs).position(different) {
        None => Ok(()),
        Some(n) => Err(format!(
            "{what}, number {n}: model {:?}, original {:?}",
            ours[n], theirs[n]
        )),
    }
}
