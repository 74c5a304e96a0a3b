//! The ends of a stream: files, or the standard streams.

use crate::fault::Fault;
use crate::opened::Opened;
use crate::shown::shown;
use std::ffi::{OsStr, OsString};
use std::fs::{File, OpenOptions};
use std::io::{self, BufRead, Read, Write};

pub struct End {
    opened: Opened,
    file: Option<File>,
}

impl End {
    /// The file that is named, or standard input for a dash and where none is.
    pub fn input(named: Option<OsString>) -> Result<End, Fault> {
        // A folder can be opened too, and is told only by reading.
        let readable = |path: &OsStr| File::open(path).and_then(|mut file| file.read(&mut []).map(|_| file));
        End::open(named, readable, Opened::standard_input)
    }

    /// The file that is named, emptied, or standard output likewise. It must be none of those that are read.
    pub fn output(named: Option<OsString>, read: &[&End]) -> Result<End, Fault> {
        let unchanged = |path: &OsStr| OpenOptions::new().write(true).create(true).truncate(false).open(path);
        let end = End::open(named, unchanged, || Opened::stream("standard output", &io::stdout()))?;
        end.opened.check_unread(read.iter().map(|other| &other.opened))?;
        if let (Some(file), true) = (&end.file, end.opened.is_file()) {
            file.set_len(0).map_err(|error| Fault::at(end.name(), error))?;
        }
        Ok(end)
    }

    fn open(
        named: Option<OsString>,
        open: impl Fn(&OsStr) -> io::Result<File>,
        standard: impl Fn() -> Result<Opened, Fault>,
    ) -> Result<End, Fault> {
        match named {
            Some(path) if path != "-" => {
                let file = open(&path).map_err(|error| Fault::at(shown(&path), error))?;
                Ok(End { opened: Opened::file(shown(&path), &file)?, file: Some(file) })
            }
            _ => Ok(End { opened: standard()?, file: None }),
        }
    }

    pub fn name(&self) -> &str {
        &self.opened.name
    }

    pub fn is_standard(&self) -> bool {
        self.file.is_none()
    }

    pub fn reader<'a>(&'a self, standard: &'a mut dyn BufRead) -> Box<dyn Read + 'a> {
        match &self.file {
            Some(file) => Box::new(file),
            None => Box::new(standard),
        }
    }

    pub fn writer<'a>(&'a self, standard: &'a mut dyn Write) -> Box<dyn Write + 'a> {
        match &self.file {
            Some(file) => Box::new(file),
            None => Box::new(standard),
        }
    }
}
