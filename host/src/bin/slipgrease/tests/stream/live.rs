//! Streams in a live pipe, and writers that fail.

use super::{example, list, Folder};
use crate::run;
use std::cell::RefCell;
use std::io::{self, BufRead, ErrorKind, Read, Write};

/// What was written, and how much of it was flushed.
#[derive(Default)]
struct Written {
    bytes: Vec<u8>,
    flushed: usize,
}

struct Out<'a>(&'a RefCell<Written>);

impl Write for Out<'_> {
    fn write(&mut self, piece: &[u8]) -> io::Result<usize> {
        self.0.borrow_mut().bytes.extend_from_slice(piece);
        Ok(piece.len())
    }

    fn flush(&mut self) -> io::Result<()> {
        let mut written = self.0.borrow_mut();
        written.flushed = written.bytes.len();
        Ok(())
    }
}

/// Input that gives its next piece only where all whole packets of those before have arrived.
struct Waiting<'a> {
    stream: &'a [u8],
    given: usize,
    lengths: Vec<usize>,
    out: &'a RefCell<Written>,
}

impl Read for Waiting<'_> {
    fn read(&mut self, buffer: &mut [u8]) -> io::Result<usize> {
        assert_eq!(self.out.borrow().flushed, self.given / 188 * 188);
        let length = self.lengths.pop().unwrap_or(0);
        buffer[..length].copy_from_slice(&self.stream[self.given..][..length]);
        self.given += length;
        Ok(length)
    }
}

impl BufRead for Waiting<'_> {
    fn fill_buf(&mut self) -> io::Result<&[u8]> {
        unreachable!("a stream is read in pieces")
    }

    fn consume(&mut self, _: usize) {}
}

#[test]
fn no_packet_waits_while_the_input_pauses() {
    let folder = Folder::new("live");
    let words = ["scramble", "--even", "--pipes", &folder.file("pipes.txt", list())].map(Into::into);
    let (stream, out) = (example().repeat(10), RefCell::default());
    let lengths = vec![188 * 40 - 188 * 20 - 1, 188 * 15 + 1, 187, 188, 189, 188 * 2 - 2, 1, 1];
    assert_eq!(lengths.iter().sum::<usize>(), stream.len());
    let mut input = Waiting { stream: &stream, given: 0, lengths, out: &out };
    assert_eq!(run(&words, &mut input, &mut Out(&out), &mut io::sink()), Ok(()));
    assert_eq!(input.given, stream.len());
}

/// Fails from a packet on.
struct Failing(usize, ErrorKind);

impl Write for Failing {
    fn write(&mut self, piece: &[u8]) -> io::Result<usize> {
        match self.0.min(piece.len()) {
            0 => Err(self.1.into()),
            length => {
                self.0 -= length;
                Ok(length)
            }
        }
    }

    fn flush(&mut self) -> io::Result<()> {
        Ok(())
    }
}

/// A reader that has gone is no fault.
#[test]
fn a_failing_write_is_told() {
    let folder = Folder::new("failing");
    let words = ["descramble", "--pipes", &folder.file("pipes.txt", list())].map(Into::into);
    for room in [0, 188, 70_000] {
        let stream = example().repeat(200);
        let failed = |out: &mut Failing, notes: &mut dyn Write| run(&words, &mut &stream[..], out, notes).unwrap_err();
        let fault = failed(&mut Failing(room, ErrorKind::PermissionDenied), &mut io::sink());
        assert_eq!((fault.message.as_str(), fault.status), ("standard output: permission denied", 1));
        assert_eq!(failed(&mut Failing(room, ErrorKind::BrokenPipe), &mut Failing(0, ErrorKind::BrokenPipe)).status, 0);
    }
}

/// A table that is lost is a failure to write, whatever became of the stream; one that nobody reads is not.
#[test]
fn a_table_that_is_lost_is_told() {
    let folder = Folder::new("lost");
    let words = ["descramble", "--pipes", &folder.file("pipes.txt", list())].map(Into::into);
    let (whole, broken) = (example(), example()[..200].to_vec());
    for (stream, status) in [(whole, 0), (broken, 2)] {
        let ended = |kind: ErrorKind| run(&words, &mut &stream[..], &mut io::sink(), &mut Failing(100, kind)).err();
        let lost = ended(ErrorKind::Other).unwrap();
        assert_eq!((lost.message.as_str(), lost.status), ("standard error: other error", 1));
        assert_eq!(ended(ErrorKind::BrokenPipe).map_or(0, |fault| fault.status), status);
    }
}
