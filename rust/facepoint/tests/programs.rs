//! The programs on files that are right, missing, short and too long.

mod common;

use std::fs;
use std::path::{Path, PathBuf};
use std::process::{Command, Output, Stdio};

use common::{between, inner_band, picture_path, sample, sample_path, written, SAMPLES};
use facepoint::{Kind, Sense, Sheet};

/// A folder of one test's own.
fn folder(name: &str) -> PathBuf {
    let path = Path::new(env!("CARGO_TARGET_TMPDIR")).join(name);
    fs::create_dir_all(&path).expect("a folder below target/");
    path
}

fn file(folder: &Path, name: &str, bytes: &[u8]) -> PathBuf {
    let path = folder.join(name);
    fs::write(&path, bytes).expect("a file below target/");
    path
}

fn run(program: &Path, paths: &[&Path]) -> Output {
    let output = Command::new(program).args(paths).output();
    output.expect("a program that runs")
}

fn draw(paths: &[&Path]) -> Output {
    run(Path::new(env!("CARGO_BIN_EXE_draw")), paths)
}

fn example(name: &str, paths: &[&Path]) -> Output {
    run(&example_path(name), paths)
}

/// `cargo test` builds the examples beside the tests, whose folder is deps/.
fn example_path(name: &str) -> PathBuf {
    let here = std::env::current_exe().expect("this test");
    let folder = here.ancestors().nth(2).expect("above deps/");
    let program = folder.join("examples").join(name);
    let missing = "`cargo test` builds it, and `cargo test --test programs` does not";
    assert!(program.is_file(), "{}: {missing}", program.display());
    program
}

fn pick_files(paths: &[&Path]) -> Output {
    example("pick_files", paths)
}

fn said(bytes: &[u8]) -> &str {
    std::str::from_utf8(bytes).expect("text")
}

/// Files that hold no sheet, each with what is said of it.
fn bad_files(folder: &Path) -> Vec<(PathBuf, &'static str)> {
    let bytes = sample("plate-a").bytes().to_vec();
    let and_one_more = [&bytes[..], &[0]].concat();
    vec![
        (folder.join("missing.sheet"), "No such file or directory"),
        (folder.into(), "Is a directory"),
        (
            file(folder, "empty.sheet", &[]),
            "too short: 0 bytes, where its sheet has 8 or more",
        ),
        (
            file(folder, "four.sheet", &[0; 4]),
            "too short: 4 bytes, where its sheet has 8 or more",
        ),
        (
            file(folder, "seven.sheet", &bytes[..7]),
            "too short: 7 bytes, where its sheet has 1201 or more",
        ),
        (
            file(folder, "cut.sheet", &bytes[..1200]),
            "too short: 1200 bytes, where its sheet has 1201 or more",
        ),
        (
            file(folder, "more.sheet", &and_one_more),
            "too long: it goes on after 1201 bytes",
        ),
        (
            file(folder, "endless.sheet", &[0xff; 65_537]),
            "too long: it goes on after 65536 bytes",
        ),
    ]
}

#[test]
fn pick_files_prints_a_line_each() {
    let folder = folder("lines");
    let tube = written(&between(Kind::Cylinder, Sense::Forward, 0.0, 1.0));
    let band = written(&inner_band());
    let mut paths = SAMPLES.map(|name| sample_path(name, "sheet")).to_vec();
    paths.push(file(&folder, "tube.sheet", tube.bytes()));
    paths.push(file(&folder, "band.sheet", band.bytes()));
    paths.push(file(&folder, "version.sheet", &[0, 0, 0, 4, 2, 0, 0, 0]));
    let paths: Vec<&Path> = paths.iter().map(|path| path.as_ref()).collect();
    let output = pick_files(&paths);
    assert!(output.status.success());
    assert_eq!(said(&output.stderr), "");
    let answers = [
        "x 0.5 y 0.5 z 0, clearance 0.5, 961 grid points",
        "x 0.15625 y 0.15625 z 0, clearance 0.13258252147247765, 705 grid points",
        "refusal 14: no covered grid point with clearance above 0.01",
        "x 1.2933333333333332 y 0.5033333333333333 z 1.0183333333333333, \
         clearance 0.18811802540140835, 795 grid points",
        "u 0.19634954084936207 v 0.5, clearance 0.5, 961 grid points",
        "u 0.19634954084936207 v -3.1415926535897927, clearance 0.5, 961 grid points",
        "refusal 2: version ≠ 1",
    ];
    let lines: Vec<&str> = said(&output.stdout).lines().collect();
    assert_eq!(lines.len(), answers.len());
    for ((line, path), answer) in lines.iter().zip(paths).zip(answers) {
        assert_eq!(*line, format!("{}: {answer}", path.display()));
    }
}

/// Each is named with what is wrong, and the next file is answered all the same.
#[test]
fn pick_files_names_bad_files() {
    let good = sample_path("plate-a", "sheet");
    for (path, why) in bad_files(&folder("bad-to-pick")) {
        let output = pick_files(&[&path, &good]);
        assert_eq!(output.status.code(), Some(1), "{why}");
        let error = said(&output.stderr);
        let start = format!("pick_files: {}: {why}", path.display());
        assert!(error.starts_with(&start), "{error}");
        assert_eq!(said(&output.stdout).lines().count(), 1);
    }
}

#[test]
fn files_at_the_limit_are_read() {
    let length = 65_532u32.to_be_bytes();
    let bytes = [&length[..], &[2], &[0; 65_531]].concat();
    let path = file(&folder("limit"), "longest.sheet", &bytes);
    let sheet = Sheet::from_file(path).expect("65,536 bytes");
    assert_eq!(sheet.bytes(), bytes);
}

#[test]
fn body_has_its_points() {
    let output = example("body", &[]);
    assert!(output.status.success());
    let lines: Vec<&str> = said(&output.stdout).lines().collect();
    let starts = [
        "washer: ",
        "wall: -0.390181 1.961571 10.500000, Grid { phase: Zero, ",
        "throat: -0.390181 1.961571 10.000000, Grid { phase: One, ",
        "corner: -1.732051 1.732051 11.732051, Triangle",
        "rim: refusal 14: ",
    ];
    assert_eq!(lines.len(), starts.len());
    for (line, start) in lines.iter().zip(starts) {
        assert!(line.starts_with(start), "{line}");
    }
}

/// Where nobody reads on it ends, and says nothing.
#[test]
fn body_ends_with_its_reader() {
    let (reader, writer) = std::io::pipe().expect("a pipe");
    drop(reader);
    let mut body = Command::new(example_path("body"));
    let output = body.stdout(writer).stderr(Stdio::piped()).spawn();
    let output = output.expect("a program that runs").wait_with_output();
    let output = output.expect("a program that ends");
    assert_eq!(said(&output.stderr), "");
    assert!(output.status.success());
}

#[test]
fn draw_writes_a_file_or_standard_output() {
    let out = folder("drawn").join("plate-b.svg");
    let sheet = sample_path("plate-b", "sheet");
    let expected = fs::read_to_string(picture_path("plate-b")).expect("a committed picture");
    let output = draw(&[&sheet, &out]);
    assert!(output.status.success());
    assert_eq!(said(&output.stdout), "");
    assert_eq!(fs::read_to_string(out).expect("written"), expected);
    let output = draw(&[&sheet]);
    assert!(output.status.success());
    assert_eq!(said(&output.stdout), expected);
}

/// A file that gives no sheet gives no picture.
#[test]
fn draw_names_bad_files() {
    let folder = folder("bad-to-draw");
    for (path, why) in bad_files(&folder) {
        let out = folder.join("none.svg");
        let output = draw(&[&path, &out]);
        assert_eq!(output.status.code(), Some(1), "{why}");
        let error = said(&output.stderr);
        let start = format!("draw: {}: {why}", path.display());
        assert!(error.starts_with(&start), "{error}");
        assert!(!out.exists());
    }
}

#[test]
fn draw_says_what_it_cannot_write() {
    let folder = folder("no-place");
    let output = draw(&[&sample_path("plate-a", "sheet"), &folder]);
    assert_eq!(output.status.code(), Some(1));
    let error = said(&output.stderr);
    assert!(error.starts_with(&format!("draw: {}: ", folder.display())));
}

#[test]
fn programs_say_how_they_are_used() {
    let output = pick_files(&[]);
    assert_eq!(output.status.code(), Some(2));
    assert_eq!(said(&output.stderr), "usage: pick_files SHEET-FILE...\n");
    let path = Path::new("x");
    for paths in [&[][..], &[path, path, path]] {
        let output = draw(paths);
        assert_eq!(output.status.code(), Some(2));
        assert_eq!(said(&output.stderr), "usage: draw SHEET-FILE [OUT.svg]\n");
    }
}
