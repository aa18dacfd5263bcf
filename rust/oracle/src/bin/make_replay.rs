//! Writes the answers of the three calls to be replayed to the folder given:
//! `cargo run --release --offline --bin make_replay -- ../crates/replay/data`

use std::path::PathBuf;
use std::{env, fs, process};

use oracle::call::Call;
use oracle::replay::{file, file_name, records};

fn main() -> std::io::Result<()> {
    let Some(folder) = env::args_os().nth(1).map(PathBuf::from) else {
        eprintln!("usage: make_replay FOLDER");
        process::exit(2);
    };
    fs::create_dir_all(&folder)?;
    for call in Call::ALL {
        fs::write(folder.join(file_name(call)), file(&records(call)))?;
    }
    Ok(())
}
