//! The desk tool: the library's calls for someone at the rack desk with a key, a block and a question.
//!
//! It takes every offset from its caller and draws none. Its status is 0 where a command is done, 3 where it is
//! done and the answer is no, and otherwise what the library's own sorter says of the refusal: 1 for a caller
//! fault, 2 for a data fault. What cannot be read or written is 1 too.

#![forbid(unsafe_code)]

mod cipher;
mod completion;
mod convert;
mod fault;
mod given;
mod help;
mod hex;
mod input;
mod json;
mod opened;
mod pipe;
mod progress;
mod record;
mod report;
mod sheet;
mod shown;
mod stream;
mod svg;
mod table;
mod tower;
mod vectors;
mod words;
mod wrap;
mod written;

use crate::fault::Fault;
use crate::shown::{brief, count};
use crate::words::Words;
use crate::Command::{Printing, Streaming};
use std::ffi::OsString;
use std::fs::File;
use std::io::{self, BufRead, BufWriter, Write};
use std::os::unix::io::AsFd;
use std::process::exit;

fn main() {
    let words: Vec<OsString> = std::env::args_os().skip(1).collect();
    if let Err(fault) = run_at_the_desk(&words) {
        let told = if fault.is_told() { writeln!(io::stderr(), "slipgrease: {}", fault.message) } else { Ok(()) };
        // A message that is lost is a failure to write, which nobody is left to tell of.
        match told.map_err(|error| Fault::at("standard error", error)) {
            Err(lost) if lost.is_told() => exit(lost.status),
            _ => exit(fault.status),
        }
    }
}

/// Runs one command between the standard streams.
fn run_at_the_desk(words: &[OsString]) -> Result<(), Fault> {
    // Rust's own standard output looks for the ends of lines, which a stream of packets does not have.
    let out = io::stdout().as_fd().try_clone_to_owned().map(File::from)?;
    let mut out = BufWriter::new(out);
    let done = run(words, &mut io::stdin().lock(), &mut out, &mut io::stderr());
    match out.flush().map_err(Fault::from) {
        Err(fault) if fault.is_told() => Err(fault),
        _ => done,
    }
}

/// What a command writes to.
enum Command {
    /// Standard output.
    Printing(fn(&mut Words, &mut dyn Write) -> Result<(), Fault>),
    /// Standard output or a file, and standard error for what it tells of it.
    Streaming(fn(&mut Words, &mut dyn Write, &mut dyn Write) -> Result<(), Fault>),
}

/// Each command by its name. Its help stands under the same name.
const COMMANDS: &[(&str, Command)] = &[
    ("expand", Printing(cipher::expand)),
    ("encrypt", Printing(cipher::encrypt)),
    ("decrypt", Printing(cipher::decrypt)),
    ("mask", Printing(cipher::mask)),
    ("unmask", Printing(cipher::unmask)),
    ("blocks", Printing(cipher::blocks)),
    ("wrap", Printing(wrap::wrap)),
    ("unwrap", Printing(wrap::unwrap)),
    ("scramble", Streaming(stream::scramble)),
    ("descramble", Streaming(stream::descramble)),
    ("convert", Printing(convert::convert)),
    ("record", Printing(record::record)),
    ("pipe", Printing(pipe::pipe)),
    ("sheet", Printing(sheet::sheet)),
    ("fitness", Printing(sheet::fitness)),
    ("report", Printing(report::report)),
    ("tower", Printing(tower::tower)),
    ("vectors", Printing(vectors::vectors)),
    ("completion", Printing(completion::completion)),
];

/// Runs one command. What it writes is printed also where it fails.
fn run(words: &[OsString], input: &mut dyn BufRead, out: &mut dyn Write, notes: &mut dyn Write) -> Result<(), Fault> {
    let asks = |word: &OsString| word == "--help" || word == "-h";
    // Behind these dashes the tool itself has no options; its command has.
    let dashes = words.first().map_or(false, |first| first == "--");
    let (first, rest) = match &words[usize::from(dashes)..] {
        [] => return print(out, help::all()),
        [first, rest @ ..] if !dashes && first == "--version" => match rest.len() {
            0 => return print(out, concat!("slipgrease ", env!("CARGO_PKG_VERSION"), "\n").into()),
            more => return Err(Fault::caller(format!("--version: {}, and none is expected", count(more, "word")))),
        },
        [first, rest @ ..] if !dashes && asks(first) || first == "help" => match rest {
            [] => return print(out, help::all()),
            [name] if name == "help" => return print(out, help::all()),
            [name] => return print(out, help::of(command(name)?.0)),
            _ => return Err(Fault::caller(format!("help: {} words, and one command is expected", rest.len()))),
        },
        [first, rest @ ..] => (first, rest),
    };
    let (name, command) = command(first)?;
    if rest.iter().take_while(|word| *word != "--").any(asks) {
        return print(out, help::of(name));
    }
    let mut words = Words::new(name, rest, input);
    match command {
        Printing(command) => command(&mut words, out),
        Streaming(command) => command(&mut words, out, notes),
    }
}

fn print(out: &mut dyn Write, text: String) -> Result<(), Fault> {
    out.write_all(text.as_bytes())?;
    Ok(())
}

fn command(name: &OsString) -> Result<&'static (&'static str, Command), Fault> {
    let found = COMMANDS.iter().find(|(its, _)| name == its);
    found.ok_or_else(|| Fault::caller(format!("no command {}; slipgrease --help lists them", brief(name))))
}

#[cfg(test)]
mod tests;
