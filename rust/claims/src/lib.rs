//! Holds docs/CLAIMS.md against the client's papers and against the files it
//! names; and names the declarations that nothing reaches ([`dead`]).
//!
//! Every sentence, bullet, rule and table row of the papers has a row that
//! quotes it, word for word and in order. A row has three cells: the quote; the
//! names that meet it, or `not yet`, or `context`, or `due with` what it comes
//! with; and their files, or `-`. With one file all names stand in it, else the
//! i-th name in the i-th file.

use std::env;
use std::ffi::OsStr;
use std::fmt;
use std::fs;
use std::path::{Path, PathBuf};

mod declared;
mod page;
mod papers;
mod reach;

pub use declared::declares;
pub use page::{names, rows, Row};
pub use papers::pieces;
pub use reach::{dead, reached};

const CLAIMS: &str = "docs/CLAIMS.md";
const PAPERS: [&str; 2] = ["docs/papers/demands.md", "docs/papers/01-scope.md"];
const NOT_YET: &str = "not yet";
const CONTEXT: &str = "context";
const DUE: &str = "due with ";

/// What the check found. Shown, it is what the program prints.
pub struct Report {
    pub errors: Vec<String>,
    pub rows: usize,
    pub not_yet: usize,
    pub due: usize,
}

impl fmt::Display for Report {
    fn fmt(&self, f: &mut fmt::Formatter) -> fmt::Result {
        for error in &self.errors {
            writeln!(f, "claims: {error}")?;
        }
        let Report {
            rows, not_yet, due, ..
        } = self;
        writeln!(
            f,
            "claims: {rows} rows, {not_yet} not yet met, {due} due later"
        )?;
        let failed = !self.errors.is_empty();
        writeln!(f, "claims: {}", if failed { "FAILED" } else { "ok" })
    }
}

/// The folder that the program is given, or the repository that this package is in.
/// cargo tells the package's folder to a program that it runs; a path kept from
/// the build would be wrong once the repository is moved.
pub fn root() -> Result<PathBuf, String> {
    let given = env::args_os().nth(1).map(PathBuf::from);
    let above = |package| Path::new(&package).join("../..");
    given
        .or_else(|| env::var_os("CARGO_MANIFEST_DIR").map(above))
        .ok_or_else(|| "no folder given, and not run by cargo".to_string())
}

/// Checks the repository in the folder `root`. An `Err` names what it could not
/// read: without the page, a paper or a source there is no verdict.
pub fn check(root: &Path) -> Result<Report, String> {
    let claims = rows(&read(root, CLAIMS)?);
    let mut errors = Vec::new();
    for Row { line, cells } in &claims {
        let at_line = |error: String| format!("{CLAIMS}:{line}: {error}");
        errors.extend(row_errors(root, cells)?.into_iter().map(at_line));
    }
    let quotes: Vec<&str> = claims.iter().filter_map(Row::quote).collect();
    errors.extend(quote_errors(&quotes, &papers(root)?));
    let count = |state: fn(&str) -> bool| {
        let met = claims.iter().filter_map(|row| row.cells.get(1));
        met.filter(|met| state(met)).count()
    };
    Ok(Report {
        errors,
        rows: claims.len(),
        not_yet: count(|met| met == NOT_YET),
        due: count(|met| met.starts_with(DUE)),
    })
}

/// The papers' names and texts, in the order of the page.
fn papers(root: &Path) -> Result<Vec<(&'static str, String)>, String> {
    let paper = |name| Ok((name, read(root, name)?));
    PAPERS.into_iter().map(paper).collect()
}

/// The pieces of the papers that no row quotes, or none after the quote of the
/// piece before.
pub fn quote_errors(quotes: &[&str], papers: &[(&str, String)]) -> Vec<String> {
    let (mut at, mut errors) = (0, Vec::new());
    for (paper, text) in papers {
        for piece in pieces(text) {
            if let Some(ahead) = quotes[at..].iter().position(|quote| *quote == piece) {
                at += ahead + 1;
            } else if quotes.contains(&piece.as_str()) {
                errors.push(format!("{paper}: quoted out of order: {piece}"));
            } else {
                errors.push(format!("{paper}: not quoted: {piece}"));
            }
        }
    }
    errors
}

fn row_errors(root: &Path, cells: &[String]) -> Result<Vec<String>, String> {
    let [_, met, files] = cells else {
        return Ok(vec![format!("{} cells, not three", cells.len())]);
    };
    if met == NOT_YET || met == CONTEXT || met.starts_with(DUE) {
        let error = (files != "-").then(|| format!("'{met}' wants '-' for a file"));
        return Ok(error.into_iter().collect());
    }
    let (found, files) = (names(met), names(files));
    if found.is_empty() || ![1, found.len()].contains(&files.len()) {
        let wanted = "names in backticks, one file or a file for each name";
        return Ok(vec![format!("'Met by' and 'File' want {wanted}")]);
    }
    name_errors(root, &found, &files)
}

fn name_errors(root: &Path, names: &[&str], files: &[&str]) -> Result<Vec<String>, String> {
    let mut errors = Vec::new();
    // One file goes round for all the names.
    for (name, file) in names.iter().zip(files.iter().cycle()) {
        if !root.join(file).is_file() {
            errors.push(format!("no file {file}"));
        } else if !stands(root, name, file)? {
            errors.push(format!("{name} does not stand in {file}"));
        }
    }
    Ok(errors)
}

/// Whether the file is the edit or the program of that name, or declares it.
fn stands(root: &Path, name: &str, file: &str) -> Result<bool, String> {
    let path = Path::new(file);
    let extension = path.extension().and_then(OsStr::to_str).unwrap_or("");
    if extension == "edit" {
        return Ok(path.file_stem() == Some(OsStr::new(name)));
    }
    if path.ends_with(format!("crates/{name}/src/main.rt")) {
        return Ok(true);
    }
    Ok(declares(extension, &read(root, file)?, name))
}

/// The file's text, each line ended by a newline alone, whatever wrote it.
fn read(root: &Path, file: &str) -> Result<String, String> {
    match fs::read_to_string(root.join(file)) {
        Ok(text) => Ok(text.replace("\r\n", "\n").replace('\r', "\n")),
        Err(error) => Err(format!("cannot read {file}: {error}")),
    }
}

/// The text on one line, its words one space apart.
fn plain(text: &str) -> String {
    text.split_whitespace().collect::<Vec<_>>().join(" ")
}
