//! Replacing a file as a whole.

use std::ffi::OsString;
use std::fs::{self, File, OpenOptions, Permissions};
use std::io::{self, Write};
use std::path::{Path, PathBuf};
use std::process;

/// The name of the temporary file, beside the file and hidden.
fn temporary(path: &Path) -> io::Result<PathBuf> {
    let name = path.file_name().ok_or_else(|| invalid("no file's name"))?;
    let mut hidden = OsString::from(".");
    hidden.push(name);
    hidden.push(format!(".mend-{}", process::id()));
    Ok(path.with_file_name(hidden))
}

fn invalid(message: &str) -> io::Error {
    io::Error::new(io::ErrorKind::InvalidInput, message)
}

fn write(path: &Path, permissions: Option<Permissions>, bytes: &[u8]) -> io::Result<()> {
    let mut file = OpenOptions::new().write(true).create_new(true).open(path)?;
    if let Some(permissions) = permissions {
        file.set_permissions(permissions)?;
    }
    file.write_all(bytes)?;
    file.sync_all()
}

/// Where the bytes go, and the permissions of what is there: the file is what a symbolic link
/// names, and may be new.
fn place(path: &Path) -> io::Result<(PathBuf, Option<Permissions>)> {
    match fs::canonicalize(path) {
        Ok(path) => {
            let there = fs::metadata(&path)?;
            if !there.is_file() {
                return Err(invalid("not a regular file"));
            }
            Ok((path, Some(there.permissions())))
        }
        Err(error) if error.kind() == io::ErrorKind::NotFound => Ok((path.to_path_buf(), None)),
        Err(error) => Err(error),
    }
}

/// Puts other bytes into a file by a temporary one that takes its name: whatever fails,
/// the file has its old bytes or its new ones. A file that is not there is made.
pub fn replace(path: &Path, bytes: &[u8]) -> io::Result<()> {
    let (path, permissions) = place(path)?;
    let beside = temporary(&path)?;
    let done = write(&beside, permissions, bytes).and_then(|()| fs::rename(&beside, &path));
    if done.is_err() {
        // The first fault is the one to tell.
        let _ = fs::remove_file(&beside);
        return done;
    }
    // The folder too, so that the new name is there behind a power cut.
    match path.parent() {
        Some(folder) if folder == Path::new("") => File::open(".")?.sync_all(),
        Some(folder) => File::open(folder)?.sync_all(),
        None => Ok(()),
    }
}
