//! Files read, and files and folders written whole or not at all.

use std::ffi::{OsStr, OsString};
use std::fs::{self, File};
use std::io::{self, Read as _, Write as _};
use std::path::{Path, PathBuf};

use crate::fault::Fault;

/// Standard input or standard output in a file's place.
pub const STANDARD: &str = "-";

pub fn read(file: &OsStr) -> Result<Vec<u8>, Fault> {
    let mut bytes = Vec::new();
    let read = if file == STANDARD {
        io::stdin().lock().read_to_end(&mut bytes).map(|_| bytes)
    } else {
        fs::read(file)
    };
    read.map_err(|error| Fault::io(file, error))
}

/// Writes to standard output.
pub fn print(bytes: &[u8]) -> Result<(), Fault> {
    let mut out = io::stdout().lock();
    let written = out.write_all(bytes).and_then(|()| out.flush());
    written.map_err(|error| Fault::io(OsStr::new("standard output"), error))
}

/// A file or folder that stands under a temporary name beside the place where it is to be. It takes its place by `keep`; where
/// that does not come, nothing of it stays.
pub struct Staged {
    temporary: PathBuf,
    target: PathBuf,
}

impl Staged {
    pub fn file(target: &OsStr, bytes: &[u8]) -> Result<Self, Fault> {
        let told = |error| Fault::io(target, error);
        // A rename would put a file in the place of a folder, a device or a pipe.
        if fs::metadata(target).is_ok_and(|found| !found.is_file()) {
            return Err(told(io::Error::other("is there, and is not a file")));
        }
        let staged = Self::new(target).map_err(told)?;
        let written = write_new(&staged.temporary, bytes);
        // So that a name never stands for a file of which the disk has less.
        written.and_then(|file| file.sync_all()).map_err(told)?;
        Ok(staged)
    }

    /// A folder with these files, where there is none.
    pub fn folder<'a>(
        target: &OsStr,
        files: impl Iterator<Item = (String, &'a [u8])>,
    ) -> Result<Self, Fault> {
        let told = |error| Fault::io(target, error);
        if fs::symlink_metadata(target).is_ok() {
            return Err(told(io::Error::other("is there already")));
        }
        let staged = Self::new(target).map_err(told)?;
        fs::create_dir(&staged.temporary).map_err(told)?;
        for (name, bytes) in files {
            write_new(&staged.temporary.join(name), bytes).map_err(told)?;
        }
        Ok(staged)
    }

    fn new(target: &OsStr) -> io::Result<Self> {
        let target = Path::new(target).to_path_buf();
        let Some(name) = target.file_name() else {
            return Err(io::Error::other("is not the name of a file"));
        };
        let mut hidden = OsString::from(".");
        hidden.push(name);
        hidden.push(format!(".{}.part", std::process::id()));
        Ok(Self {
            temporary: target.with_file_name(hidden),
            target,
        })
    }

    pub fn keep(self) -> Result<(), Fault> {
        let renamed = fs::rename(&self.temporary, &self.target);
        renamed.map_err(|error| Fault::io(self.target.as_os_str(), error))
    }
}

impl Drop for Staged {
    fn drop(&mut self) {
        // After `keep` nothing has the temporary name, and there is nobody to tell of what cannot be taken away.
        let _ = fs::remove_file(&self.temporary).or_else(|_| fs::remove_dir_all(&self.temporary));
    }
}

fn write_new(path: &Path, bytes: &[u8]) -> io::Result<File> {
    let mut file = File::create_new(path)?;
    file.write_all(bytes)?;
    Ok(file)
}
