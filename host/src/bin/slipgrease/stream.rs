//! Streams of packets, scrambled or descrambled on the way from a file or standard input to a file or standard output.

mod counts;
mod ends;
mod list;
mod run;
mod sync;

use crate::fault::Fault;
use crate::words::Words;
use ends::End;
use run::Run;
use slipgrease::{Parity, Way};
use std::io::Write;

pub fn scramble(words: &mut Words, out: &mut dyn Write, notes: &mut dyn Write) -> Result<(), Fault> {
    let parity = match (words.flag("even")?, words.flag("odd")?) {
        (true, false) => Parity::Even,
        (false, true) => Parity::Odd,
        (true, true) => return Err(Fault::caller("--even and --odd are both given, and one of them is expected")),
        (false, false) => {
            return Err(Fault::caller(
                "--even or --odd is missing: which of a pipe's two keys scrambles is the caller's to choose",
            ))
        }
    };
    through(Way::Scramble(parity), words, out, notes)
}

pub fn descramble(words: &mut Words, out: &mut dyn Write, notes: &mut dyn Write) -> Result<(), Fault> {
    through(Way::Descramble, words, out, notes)
}

/// Nothing is written to, and no file emptied, before all that is given has been looked at.
fn through(way: Way, words: &mut Words, out: &mut dyn Write, notes: &mut dyn Write) -> Result<(), Fault> {
    let pass = words.flag("pass")?;
    let list = words.file_of("pipes")?;
    let (from, to) = (words.argument()?, words.argument()?);
    words.end()?;
    let list =
        list.ok_or_else(|| Fault::caller("--pipes is missing: a file with a line for each of the seven pipes is expected"))?;
    let (list, from) = (End::input(Some(list))?, End::input(from)?);
    if list.is_standard() {
        words.input().hold("the file of pipes")?;
    }
    if from.is_standard() {
        words.input().hold("the stream")?;
    }
    let pipes = list::read(&list, words.input().reader())?;
    let to = End::output(to, &[&list, &from])?;
    let mut run = Run::new(pass, from.name(), to.name());
    let done = run.through(pipes.stream(way), &mut from.reader(words.input().reader()), &mut to.writer(out));
    let told = notes.write_all(run.table().as_bytes()).and_then(|()| notes.flush());
    match told.map_err(|error| Fault::at("standard error", error)) {
        // A table that is lost is a failure to write, whatever became of the stream.
        Err(lost) if lost.is_told() => Err(lost),
        _ => done,
    }
}
