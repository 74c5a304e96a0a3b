//! Which file it is that was opened, so that none is written to that is read as well.

use crate::fault::Fault;
use std::fs::File;
use std::io;
use std::os::unix::fs::MetadataExt;
use std::os::unix::io::AsFd;

/// What was opened: its name, and the device and the number of a regular file, which are no other's.
#[derive(Clone)]
pub struct Opened {
    pub name: String,
    identity: Option<(u64, u64)>,
}

impl Opened {
    pub fn file(name: String, file: &File) -> Result<Opened, Fault> {
        match file.metadata() {
            Ok(its) => Ok(Opened { name, identity: its.is_file().then(|| (its.dev(), its.ino())) }),
            Err(error) => Err(Fault::at(name, error)),
        }
    }

    /// One of the standard streams, which may be a file too.
    pub fn stream(name: &str, stream: &impl AsFd) -> Result<Opened, Fault> {
        let file = stream.as_fd().try_clone_to_owned().map_err(|error| Fault::at(name, error))?;
        Opened::file(name.to_string(), &File::from(file))
    }

    pub fn standard_input() -> Result<Opened, Fault> {
        Opened::stream("standard input", &io::stdin())
    }

    /// Whether it is a regular file, which has contents to lose.
    pub fn is_file(&self) -> bool {
        self.identity.is_some()
    }

    /// What is written to must be none of those that are read.
    pub fn check_unread<'a>(&self, mut read: impl Iterator<Item = &'a Opened>) -> Result<(), Fault> {
        match read.find(|other| self.is_file() && other.identity == self.identity) {
            Some(other) => Err(Fault::caller(format!("{}: it is written to, and is read as {} too", self.name, other.name))),
            None => Ok(()),
        }
    }
}
