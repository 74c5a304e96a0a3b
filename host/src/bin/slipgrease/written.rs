//! A file that is written as a whole, and is none of those that were read.

use crate::fault::Fault;
use crate::opened::Opened;
use crate::shown::shown;
use std::ffi::OsStr;
use std::fs::{File, OpenOptions, Permissions};
use std::io::{self, Write};
use std::os::unix::fs::{OpenOptionsExt, PermissionsExt};

const OWNER_ALONE: u32 = 0o600;

/// Writes a file for anyone, with the mode that any new file has, or that the one had which is written over.
pub fn write(path: &OsStr, text: &str, read: &[Opened]) -> Result<(), Fault> {
    write_with(path, text, read, OpenOptions::new().write(true).create(true), |_| Ok(()))
}

/// Writes a file with mode 600, also over one that had another. What is no file, as /dev/stdout may be, keeps its mode.
pub fn write_private(path: &OsStr, text: &str, read: &[Opened]) -> Result<(), Fault> {
    let close = |file: &File| file.set_permissions(Permissions::from_mode(OWNER_ALONE));
    write_with(path, text, read, OpenOptions::new().write(true).create(true).mode(OWNER_ALONE), close)
}

/// What was in the file is given up once it is known to be none of those that were read.
fn write_with(
    path: &OsStr,
    text: &str,
    read: &[Opened],
    options: &OpenOptions,
    close: impl Fn(&File) -> io::Result<()>,
) -> Result<(), Fault> {
    let at = |error| Fault::at(shown(path), error);
    let mut file = options.open(path).map_err(at)?;
    let opened = Opened::file(shown(path), &file)?;
    opened.check_unread(read.iter())?;
    if opened.is_file() {
        close(&file).and_then(|()| file.set_len(0)).map_err(at)?;
    }
    file.write_all(text.as_bytes()).map_err(at)
}
