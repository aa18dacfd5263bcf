//! All sheets measured, and what is printed of it.

use std::fmt;

use super::sheets::{by_coedges, by_rings, six, six_small, Subject};
use super::{growth, measured, Growth, Row, Times};
use crate::convention::Callee;

/// What the least of the six ratios must reach, and what it is to reach.
const BAR: f64 = 25.0;
const GOAL: f64 = 100.0;
/// How many times longer 2176 segments may take than 68: 32 times as many.
const MOST_GROWTH: f64 = 32.0;

/// What was measured of a sheet, or what differed on it, under its name.
type Measured = (String, Result<Row, String>);

/// What was measured of each sheet, or what differed on it.
pub struct Report {
    rounds: usize,
    /// Those whose ratios are asked for.
    rows: Vec<Measured>,
    /// Those without a bar.
    small: Vec<Measured>,
    growths: Vec<Result<Growth, String>>,
}

impl Report {
    /// The six sheets, the six small ones and both series.
    pub fn new(callee: Callee, rounds: usize) -> Report {
        let rows = Report::of(&six(), callee, rounds);
        Report {
            growths: [by_rings(), by_coedges()]
                .map(|subjects| growth(&subjects, callee, rounds))
                .into(),
            ..rows.with_small(&six_small(), callee)
        }
    }

    /// These sheets alone.
    pub fn of(subjects: &[Subject], callee: Callee, rounds: usize) -> Report {
        Report {
            rounds,
            rows: rows(subjects, callee, rounds),
            small: Vec::new(),
            growths: Vec::new(),
        }
    }

    /// These sheets too, without a bar.
    pub fn with_small(self, subjects: &[Subject], callee: Callee) -> Report {
        Report {
            small: rows(subjects, callee, self.rounds),
            ..self
        }
    }

    /// The sheets whose ratios are asked for and on which all answers have the same
    /// bits.
    pub fn rows(&self) -> impl Iterator<Item = &Row> {
        agreeing(&self.rows)
    }

    /// The small sheets on which all answers have the same bits.
    pub fn small(&self) -> impl Iterator<Item = &Row> {
        agreeing(&self.small)
    }

    pub fn bits_agree(&self) -> bool {
        let mut measured = self.rows.iter().chain(&self.small);
        measured.all(|(_, row)| row.is_ok()) && self.growths.iter().all(Result::is_ok)
    }

    /// The least ratio to the original as published, the small sheets' aside; none
    /// where any bits differ.
    pub fn least_ratio(&self) -> Option<f64> {
        let ratios = self.rows().map(|row| row.ratio(row.published).least);
        self.bits_agree()
            .then(|| ratios.fold(f64::INFINITY, f64::min))
    }

    /// Whether the least ratio and the growth are as asked.
    pub fn meets_bar(&self) -> bool {
        let least = self.least_ratio();
        let mut growths = self.growths.iter().flatten();
        least.is_some_and(|least| least >= BAR)
            && growths.all(|growth| growth.ratio() <= MOST_GROWTH)
    }
}

fn rows(subjects: &[Subject], callee: Callee, rounds: usize) -> Vec<Measured> {
    let row = |subject: &Subject| (subject.name.clone(), measured(subject, callee, rounds));
    subjects.iter().map(row).collect()
}

fn agreeing(measured: &[Measured]) -> impl Iterator<Item = &Row> {
    measured.iter().filter_map(|(_, row)| row.as_ref().ok())
}

const HEAD: &str = "\
One process, one thread. A round runs the columns in turn, each over a batch of at
least 2 ms; sheets, rows and lists are made before.
original  `pick` of uv.rs, as published (std hypot) and with the stand-in for hypot
shims     what the original does where it asks the shims (rows, samples, evaluation),
          its own work there included: taken off its time in both ratios
exported  plane pick; on curved sheets chart, evaluation and image pick together,
          with the evaluator that the original asks
bits      of the exported calls against the original with the stand-in: status, x, y,
          z, clearance, count, the chart's written points; the original as published
          must answer the same point. Before the first round and after the last.
buffers   each call clears its own arrays first, within its time; the lists that the
          host lends are made once, and not cleared between calls
";

impl fmt::Display for Report {
    fn fmt(&self, f: &mut fmt::Formatter) -> fmt::Result {
        let rounds = self.rounds;
        writeln!(
            f,
            "µs a call: the least of {rounds} rounds, and the median\n\n{HEAD}"
        )?;
        self.table(f)?;
        self.parts(f)?;
        for growth in &self.growths {
            write_growth(f, growth)?;
        }
        match self.least_ratio() {
            None => writeln!(f, "no least ratio: not all bits agree"),
            Some(least) => {
                let met = |ratio: f64| if least >= ratio { "met" } else { "not met" };
                let (bar, goal) = (met(BAR), met(GOAL));
                write!(f, "least ratio to the original as published: {least:.2} ")?;
                writeln!(f, "(bar {BAR}: {bar}, goal {GOAL}: {goal})")
            }
        }
    }
}

impl Report {
    fn table(&self, f: &mut fmt::Formatter) -> fmt::Result {
        writeln!(f, "{:64}original over exported", "")?;
        let columns = "segments std hypot  stand-in     shims  exported  std hypot  stand-in";
        writeln!(f, "{:20}{columns}", "sheet")?;
        write_rows(f, &self.rows)?;
        if !self.small.is_empty() {
            writeln!(f, "small, without a bar")?;
            write_rows(f, &self.small)?;
        }
        writeln!(f)
    }

    fn parts(&self, f: &mut fmt::Formatter) -> fmt::Result {
        let rows = || self.rows().chain(self.small());
        if rows().all(|row| row.parts.is_none()) {
            return Ok(());
        }
        let columns = "   chart  evaluation  image pick";
        writeln!(f, "{:20}{columns}", "exported, divided")?;
        for row in rows() {
            if let Some(parts) = row.parts {
                let [chart, evaluation, pick] = parts.map(|part| part.least);
                write!(f, "{:18} {chart:9.1}", row.name)?;
                writeln!(f, " {evaluation:11.1} {pick:11.1}")?;
            }
        }
        writeln!(f)
    }
}

fn write_rows(f: &mut fmt::Formatter, measured: &[Measured]) -> fmt::Result {
    for (name, row) in measured {
        match row {
            Ok(row) => write_row(f, row)?,
            Err(found) => writeln!(f, "{name:18} no ratio: {found}")?,
        }
    }
    Ok(())
}

/// A line of the least times and one of the medians.
fn write_row(f: &mut fmt::Formatter, row: &Row) -> fmt::Result {
    let [published, stand_in] = [row.published, row.stand_in].map(|times| row.ratio(times));
    let columns = [row.published, row.stand_in, row.shims, row.exported];
    let mut line = |name: &str, segments: &str, of: fn(Times) -> f64| {
        write!(f, "{name:18} {segments:>9}")?;
        for times in columns {
            write!(f, " {:9.1}", of(times))?;
        }
        writeln!(f, "  {:9.2} {:9.2}", of(published), of(stand_in))
    };
    line(&row.name, &row.segments.to_string(), |times| times.least)?;
    line("           medians", "", |times| times.median)
}

fn write_growth(f: &mut fmt::Formatter, growth: &Result<Growth, String>) -> fmt::Result {
    let growth = match growth {
        Ok(growth) => growth,
        Err(found) => return writeln!(f, "no growth: {found}\n"),
    };
    writeln!(f, "segments  exported    median  plane pick")?;
    for (name, segments, Times { least, median }) in &growth.0 {
        writeln!(f, "{segments:8} {least:9.1} {median:9.1}  {name}")?;
    }
    let ratio = growth.ratio();
    let met = if ratio <= MOST_GROWTH { "yes" } else { "no" };
    write!(f, "time(2176 segments)/time(68 segments): {ratio:.2}, ")?;
    writeln!(f, "at most {MOST_GROWTH}: {met}\n")
}
