//! Writes the answers of the calls after the picker to be replayed to the folder
//! given, a file for each call under its name, and prints what each holds:
//! `cargo run --release --offline --bin make_replay_after -- ../crates/replay/data`

use std::path::PathBuf;
use std::{env, fs, process};

use oracle::after::replay::{file, records};
use oracle::after::Call;

fn main() -> std::io::Result<()> {
    let Some(folder) = env::args_os().nth(1).map(PathBuf::from) else {
        eprintln!("usage: make_replay_after FOLDER");
        process::exit(2);
    };
    fs::create_dir_all(&folder)?;
    for call in Call::ALL {
        let records = records(call);
        let answered = records.iter().filter(|record| record.left.status == 0);
        let bytes = file(&records);
        println!(
            "{call}: {} records, {} answered, {} bytes",
            records.len(),
            answered.count(),
            bytes.len()
        );
        fs::write(folder.join(call.to_string()), bytes)?;
    }
    Ok(())
}
