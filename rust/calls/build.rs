//! Finds the archive of the proved calls and links it. The order:
//!
//! 1. the file that the environment names by FACEPOINT_ARCHIVE, or none where it says
//!    `none`,
//! 2. the repository's crates/capi/out/libcapi.a, as it stands,
//! 3. with the feature `archive`: `rt lib` in crates/capi, which proves and writes
//!    it.
//!
//! Without the feature nothing is linked where there is no archive. A named file that
//! is missing is an error either way.

use std::env;
use std::io::ErrorKind;
use std::path::{Path, PathBuf};
use std::process::Command;

fn main() {
    println!("cargo::rerun-if-changed=build.rs");
    println!("cargo::rerun-if-env-changed=FACEPOINT_ARCHIVE");
    let found = find_archive().and_then(|archive| archive.map_or(Ok(()), link));
    // Each line is an error of cargo's, which then stops.
    for line in found.err().into_iter().flatten() {
        println!("cargo::error={line}");
    }
}

/// What is wrong, and what to do about it, a line each.
type Complaint = Vec<String>;

/// Whether a build without the archive is of no use.
fn needed() -> bool {
    env::var_os("CARGO_FEATURE_ARCHIVE").is_some()
}

fn find_archive() -> Result<Option<PathBuf>, Complaint> {
    if let Some(named) = env::var_os("FACEPOINT_ARCHIVE") {
        return named_archive(PathBuf::from(named));
    }
    let manifest = env::var_os("CARGO_MANIFEST_DIR").expect("set by cargo");
    let root = Path::new(&manifest).join("../..");
    let archive = root.join("crates/capi/out/libcapi.a");
    // A path that is not there yet makes cargo look again at the next build.
    println!("cargo::rerun-if-changed={}", archive.display());
    if !archive.is_file() {
        if !needed() {
            return Ok(None);
        }
        check_target()?;
        build_archive(&root)?;
    }
    Ok(Some(archive))
}

fn named_archive(named: PathBuf) -> Result<Option<PathBuf>, Complaint> {
    if named.as_os_str() == "none" && !needed() {
        return Ok(None);
    }
    println!("cargo::rerun-if-changed={}", named.display());
    if named.is_file() {
        return Ok(Some(named));
    }
    let without = if needed() {
        ""
    } else {
        " say `none` to build without,"
    };
    Err(vec![
        format!("FACEPOINT_ARCHIVE names no file: {}", named.display()),
        format!("name the archive that `rt lib` in crates/capi writes,{without} or leave the variable unset"),
    ])
}

/// The archive holds machine code for one kind of machine.
fn check_target() -> Result<(), Complaint> {
    let of = |key: &str| env::var(key).unwrap_or_default();
    let (arch, os) = (of("CARGO_CFG_TARGET_ARCH"), of("CARGO_CFG_TARGET_OS"));
    if (arch.as_str(), os.as_str()) == ("x86_64", "linux") {
        return Ok(());
    }
    Err(vec![format!(
        "facepoint links into x86-64 Linux programs, and this target is {arch} {os}"
    )])
}

/// Proves and compiles the calls, some minutes' work from nothing.
fn build_archive(root: &Path) -> Result<(), Complaint> {
    if !root.join("crates/capi").is_dir() {
        return Err(vec![
            "the archive of the proved calls, libcapi.a, was not found".into(),
            "name it by FACEPOINT_ARCHIVE, or build this crate inside facepoint's repository"
                .into(),
        ]);
    }
    let run = Command::new("rt")
        .arg("lib")
        .current_dir(root.join("crates/capi"))
        .output();
    match run {
        Ok(output) if output.status.success() => Ok(()),
        Ok(output) => {
            let said = [output.stdout, output.stderr].concat();
            let said = String::from_utf8_lossy(&said);
            let lines: Vec<&str> = said.lines().collect();
            let mut complaint = vec![format!("`rt lib` in crates/capi failed: {}", output.status)];
            let last = lines.iter().skip(lines.len().saturating_sub(20));
            complaint.extend(last.map(|line| line.to_string()));
            Err(complaint)
        }
        Err(e) if e.kind() == ErrorKind::NotFound => Err(vec![
            "the archive of the proved calls is not built, and the Rattle kit is missing: no `rt` on the PATH".into(),
            "put the kit's bin/ on the PATH, or name a built libcapi.a by FACEPOINT_ARCHIVE".into(),
        ]),
        Err(e) => Err(vec![format!("`rt lib` in crates/capi could not be run: {e}")]),
    }
}

fn link(archive: PathBuf) -> Result<(), Complaint> {
    check_target()?;
    let unusable = |why: &str| vec![format!("{}: {why}", archive.display())];
    let archive = archive
        .canonicalize()
        .map_err(|e| unusable(&e.to_string()))?;
    let name = archive.file_stem().and_then(|stem| stem.to_str());
    let name = name
        .and_then(|stem| stem.strip_prefix("lib"))
        .filter(|_| archive.extension().is_some_and(|end| end == "a"))
        .ok_or_else(|| unusable("an archive is named libNAME.a"))?;
    let folder = archive.parent().ok_or_else(|| unusable("in no folder"))?;
    println!("cargo::metadata=archive={}", archive.display());
    println!("cargo::rustc-link-search=native={}", folder.display());
    println!("cargo::rustc-link-lib=static={name}");
    Ok(())
}
