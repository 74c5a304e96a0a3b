//! Words and lines of an input that may have no end: of none is more kept than some kilobytes.

use crate::fault::Fault;
use crate::opened::Opened;
use crate::shown::shown;
use std::ffi::OsStr;
use std::fs::File;
use std::io::{BufRead, BufReader, ErrorKind, Read};

/// As much as is kept at once: a line, a word, or all words together. The longest that any call takes is 8,192 digits, 256 blocks.
const LIMIT: usize = 1 << 14;

pub struct Input<'a> {
    pub name: String,
    reader: Box<dyn BufRead + 'a>,
    words: usize,
    lines: usize,
    /// A terminal would be asked once more behind its end.
    ended: bool,
    /// What all that is left is for, where it is for one thing alone.
    held_by: Option<String>,
}

impl<'a> Input<'a> {
    pub fn standard(reader: &'a mut dyn BufRead) -> Input<'a> {
        Input::new("standard input".to_string(), Box::new(reader))
    }

    /// A file, and which one it is.
    pub fn file(path: &OsStr) -> Result<(Input<'a>, Opened), Fault> {
        let name = shown(path);
        let file = File::open(path).map_err(|error| Fault::at(&name, error))?;
        let opened = Opened::file(name.clone(), &file)?;
        Ok((Input::new(name, Box::new(BufReader::new(file))), opened))
    }

    fn new(name: String, reader: Box<dyn BufRead + 'a>) -> Input<'a> {
        Input { name, reader, words: 0, lines: 0, ended: false, held_by: None }
    }

    /// For what is made of other things than words and lines.
    pub fn reader(&mut self) -> &mut dyn BufRead {
        &mut *self.reader
    }

    /// Whether anything was looked for here, or is to be.
    pub fn is_used(&self) -> bool {
        self.words > 0 || self.ended || self.held_by.is_some()
    }

    /// Keeps all that is left for one thing.
    pub fn hold(&mut self, what: &str) -> Result<(), Fault> {
        self.is_free_for(what)?;
        self.held_by = Some(what.to_string());
        Ok(())
    }

    fn is_free_for(&self, what: &str) -> Result<(), Fault> {
        match &self.held_by {
            Some(other) => Err(Fault::caller(format!("{} cannot be both {other} and {what}", self.name))),
            None => Ok(()),
        }
    }

    /// The next word, if there is one, and its place, for one thing among others.
    pub fn word_for(&mut self, what: &str) -> Result<Option<(String, String)>, Fault> {
        self.is_free_for(what)?;
        self.word()
    }

    /// A word behind all that were asked for, if there is one. What is kept for one thing has none.
    pub fn surplus(&mut self) -> Result<Option<(String, String)>, Fault> {
        match self.is_used() && self.held_by.is_none() {
            true => self.word(),
            false => Ok(None),
        }
    }

    fn word(&mut self) -> Result<Option<(String, String)>, Fault> {
        let place = format!("word {} of {}", self.words + 1, self.name);
        let mut word = Vec::new();
        while let Some(byte) = self.byte()? {
            match byte.is_ascii_whitespace() {
                false => keep(byte, &mut word, &place)?,
                true if word.is_empty() => (),
                true => break,
            }
        }
        if word.is_empty() {
            return Ok(None);
        }
        self.words += 1;
        Ok(Some((text(word), place)))
    }

    /// All words that are left, together.
    pub fn all(&mut self) -> Result<String, Fault> {
        let mut all = Vec::new();
        while let Some(byte) = self.byte()? {
            if !byte.is_ascii_whitespace() {
                keep(byte, &mut all, &self.name)?;
            }
        }
        Ok(text(all))
    }

    /// Whether it may be words of hex digits, by its first byte, which is not taken. An empty input may be, too.
    pub fn may_be_digits(&mut self) -> Result<bool, Fault> {
        let first = loop {
            match self.reader.fill_buf() {
                Err(error) if error.kind() == ErrorKind::Interrupted => continue,
                filled => break filled.map_err(|error| Fault::at(&self.name, error))?.first().copied(),
            }
        };
        self.ended = first.is_none();
        Ok(first.map_or(true, |byte| byte.is_ascii_hexdigit() || byte.is_ascii_whitespace()))
    }

    /// All bytes that are left, as they are.
    pub fn bytes(&mut self) -> Result<Vec<u8>, Fault> {
        let mut bytes = Vec::new();
        while let Some(byte) = self.byte()? {
            keep(byte, &mut bytes, &self.name)?;
        }
        Ok(bytes)
    }

    /// The next line, if there is one, and its number.
    pub fn line(&mut self) -> Result<Option<(usize, String)>, Fault> {
        self.lines += 1;
        let place = format!("{}, line {}", self.name, self.lines);
        let mut line = Vec::new();
        while let Some(byte) = self.byte()? {
            if byte == b'\n' {
                return Ok(Some((self.lines, self.line_of(line))));
            }
            keep(byte, &mut line, &place)?;
        }
        Ok(if line.is_empty() { None } else { Some((self.lines, self.line_of(line))) })
    }

    /// Some editors write a byte order mark in front of the first line.
    fn line_of(&self, bytes: Vec<u8>) -> String {
        let line = text(bytes);
        match line.strip_prefix('\u{feff}') {
            Some(rest) if self.lines == 1 => rest.to_string(),
            _ => line,
        }
    }

    fn byte(&mut self) -> Result<Option<u8>, Fault> {
        if self.ended {
            return Ok(None);
        }
        let byte = self.reader.by_ref().bytes().next().transpose().map_err(|error| Fault::at(&self.name, error))?;
        self.ended = byte.is_none();
        Ok(byte)
    }
}

fn keep(byte: u8, kept: &mut Vec<u8>, place: &str) -> Result<(), Fault> {
    if kept.len() == LIMIT {
        return Err(Fault::caller(format!("{place}: longer than {LIMIT} bytes, which no command takes")));
    }
    kept.push(byte);
    Ok(())
}

/// What is no text is told where its digits are looked at.
fn text(bytes: Vec<u8>) -> String {
    String::from_utf8_lossy(&bytes).into_owned()
}
