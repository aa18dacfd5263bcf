//! Writes the vectors of root and round to the folder given:
//! `cargo run --release --offline --bin make_vectors -- ../crates/vectors/data`

use std::path::PathBuf;
use std::{env, fs, process};

use oracle::vectors::{root_file, round_file};

fn main() -> std::io::Result<()> {
    let Some(folder) = env::args_os().nth(1).map(PathBuf::from) else {
        eprintln!("usage: make_vectors FOLDER");
        process::exit(2);
    };
    fs::create_dir_all(&folder)?;
    fs::write(folder.join("root"), root_file())?;
    fs::write(folder.join("round"), round_file())
}
