//! Sheets in files.

use std::error::Error;
use std::fmt;
use std::fs::File;
use std::io::{self, Read};
use std::path::{Path, PathBuf};

/// The most bytes that a sheet's file may have. The largest sheet that the picker
/// accepts has 35,936.
pub const LONGEST_FILE: usize = 65_536;

/// Why a file gives no sheet.
#[derive(Debug)]
#[non_exhaustive]
pub enum FileError {
    /// It is missing or cannot be read.
    Unreadable(PathBuf, io::Error),
    /// It ends before its sheet does.
    Short {
        /// The file.
        path: PathBuf,
        /// The file's bytes.
        bytes: usize,
        /// The bytes that the sheet has at least.
        expected: usize,
    },
    /// It goes on behind its sheet.
    Long {
        /// The file.
        path: PathBuf,
        /// The bytes that the sheet has at most.
        expected: usize,
    },
}

impl fmt::Display for FileError {
    fn fmt(&self, f: &mut fmt::Formatter) -> fmt::Result {
        match self {
            FileError::Unreadable(path, why) => write!(f, "{}: {why}", path.display()),
            FileError::Short {
                path,
                bytes,
                expected,
            } => write!(
                f,
                "{}: too short: {bytes} bytes, where its sheet has {expected} or more",
                path.display()
            ),
            FileError::Long { path, expected } => write!(
                f,
                "{}: too long: it goes on after {expected} bytes",
                path.display()
            ),
        }
    }
}

impl Error for FileError {
    fn source(&self) -> Option<&(dyn Error + 'static)> {
        match self {
            FileError::Unreadable(_, why) => Some(why),
            _ => None,
        }
    }
}

/// The bytes of a file that holds one sheet: as many as its length field says.
pub(crate) fn read(path: &Path) -> Result<Vec<u8>, FileError> {
    let mut bytes = Vec::new();
    let limit = LONGEST_FILE as u64 + 1;
    File::open(path)
        .and_then(|file| file.take(limit).read_to_end(&mut bytes))
        .map_err(|why| FileError::Unreadable(path.into(), why))?;
    let path = PathBuf::from(path);
    let long = |expected| FileError::Long {
        path: path.clone(),
        expected,
    };
    if bytes.len() > LONGEST_FILE {
        return Err(long(LONGEST_FILE));
    }
    let field = bytes
        .first_chunk()
        .map_or(0, |&field| u32::from_be_bytes(field));
    let said = usize::try_from(field).map_or(usize::MAX, |after| after.saturating_add(4));
    let expected = said.max(8);
    if bytes.len() < expected {
        return Err(FileError::Short {
            path,
            bytes: bytes.len(),
            expected,
        });
    }
    if bytes.len() > expected {
        return Err(long(expected));
    }
    Ok(bytes)
}
