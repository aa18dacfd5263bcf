//! Draws a sheet as SVG:
//!
//!     cargo run -p facepoint --bin draw -- ../samples/panel.sheet panel.svg
//!
//! Without a second name the picture goes to standard output. A sheet without a point
//! gets a picture, too, with the refusal's name. A file that is missing, short or too
//! long is named on standard error, and the exit status is then 1.

use std::env::args_os;
use std::ffi::OsString;
use std::fs;
use std::io::{stdout, Write};
use std::path::Path;
use std::process::ExitCode;

use facepoint::{picture, Sheet};

fn main() -> ExitCode {
    let names: Vec<OsString> = args_os().skip(1).collect();
    let drawn = match &names[..] {
        [sheet] => draw(sheet.as_ref(), None),
        [sheet, out] => draw(sheet.as_ref(), Some(out.as_ref())),
        _ => {
            eprintln!("usage: draw SHEET-FILE [OUT.svg]");
            return ExitCode::from(2);
        }
    };
    match drawn {
        Ok(()) => ExitCode::SUCCESS,
        Err(why) => {
            eprintln!("draw: {why}");
            ExitCode::FAILURE
        }
    }
}

fn draw(path: &Path, out: Option<&Path>) -> Result<(), String> {
    let sheet = Sheet::from_file(path).map_err(|why| why.to_string())?;
    let title = path.file_stem().unwrap_or_default().to_string_lossy();
    let picture = picture::svg(&sheet, &title);
    match out {
        Some(out) => fs::write(out, picture).map_err(|why| format!("{}: {why}", out.display())),
        None => stdout()
            .write_all(picture.as_bytes())
            .map_err(|why| format!("standard output: {why}")),
    }
}
