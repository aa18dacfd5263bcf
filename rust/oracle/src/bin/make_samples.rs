//! Writes the sample sheets and their lines to the folder given:
//! `cargo run --release --offline --bin make_samples -- ../samples`

use std::path::PathBuf;
use std::{env, fs, process};

use oracle::model::MODEL;
use oracle::samples::{line, samples};

fn main() -> std::io::Result<()> {
    let Some(folder) = env::args_os().nth(1).map(PathBuf::from) else {
        eprintln!("usage: make_samples FOLDER");
        process::exit(2);
    };
    fs::create_dir_all(&folder)?;
    for sample in samples() {
        let bytes = sample.sheet.bytes();
        let line = line(&MODEL.plane_pick(&bytes));
        print!("{}, {} bytes: {line}", sample.name, bytes.len());
        fs::write(folder.join(sample.name).with_extension("sheet"), &bytes)?;
        fs::write(folder.join(sample.name).with_extension("line"), line)?;
    }
    Ok(())
}
