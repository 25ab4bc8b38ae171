//! What can go wrong, and the exit status that says so.

use std::ffi::OsStr;
use std::{fmt, io};

use crepedum::Refusal;

const USAGE: u8 = 64;
const IO: u8 = 74;

pub enum Fault {
    Usage(String),
    Io { file: String, error: io::Error },
    Refused { file: String, refusal: Refusal },
}

impl Fault {
    pub fn io(file: &OsStr, error: io::Error) -> Self {
        Self::Io {
            file: file.display().to_string(),
            error,
        }
    }

    pub fn refused(file: &OsStr, refusal: Refusal) -> Self {
        Self::Refused {
            file: file.display().to_string(),
            refusal,
        }
    }

    /// Refusals have their own number, which is below the others.
    pub fn status(&self) -> u8 {
        match self {
            Self::Usage(_) => USAGE,
            Self::Io { .. } => IO,
            Self::Refused { refusal, .. } => refusal.number(),
        }
    }
}

impl fmt::Display for Fault {
    fn fmt(&self, text: &mut fmt::Formatter<'_>) -> fmt::Result {
        match self {
            Self::Usage(what) => text.write_str(what.trim_end()),
            Self::Io { file, error } => write!(text, "{file}: {error}"),
            Self::Refused { file, refusal } => write!(text, "{file}: {refusal}"),
        }
    }
}
