//! Writes the file of plates to the folder given, and prints a line for each:
//! `cargo run --release --offline --bin make_plates -- ../crates/plates/data`

use std::path::PathBuf;
use std::{env, fs, process};

use oracle::plates::{plates, plates_file};

fn main() -> std::io::Result<()> {
    let Some(folder) = env::args_os().nth(1).map(PathBuf::from) else {
        eprintln!("usage: make_plates FOLDER");
        process::exit(2);
    };
    fs::create_dir_all(&folder)?;
    fs::write(folder.join("plates"), plates_file())?;
    for plate in plates() {
        let left = plate.judged().expect("model and original agree");
        println!("{}", plate.line(&left));
    }
    Ok(())
}
