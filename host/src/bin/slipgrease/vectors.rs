//! Vectors of a file or of standard input, each run by the rack's engine and by the module's at every offset.

mod read;

use crate::fault::Fault;
use crate::hex::digits;
use crate::input::Input;
use crate::json;
use crate::progress::Progress;
use crate::shown::count;
use crate::words::Words;
use read::{Vector, Vectors};
use slipgrease::{Block, Offset, Step};
use std::io::{self, Write};
use std::time::Duration;

/// A vector that differs is a data fault, found once all have been run.
pub fn vectors(words: &mut Words, out: &mut dyn Write) -> Result<(), Fault> {
    let json = words.flag("json")?;
    let step = words.taken_step()?;
    let file = words.argument()?.filter(|file| file != "-");
    words.end()?;
    let mut vectors = Vectors::new(match file {
        Some(file) => words.open(&file)?,
        None => Input::standard(words.input().reader()),
    });
    let mut report = Report::new(vectors.name().to_string(), step, json);
    let done = report.fill(&mut vectors, out);
    if done.is_ok() || report.begun {
        report.end(out)?;
    }
    done?;
    let Report { file, compared, differ, .. } = report;
    match differ {
        0 => Ok(()),
        1 => Err(Fault::data(format!("{file}: 1 of {compared} differs"))),
        _ => Err(Fault::data(format!("{file}: {differ} of {compared} differ"))),
    }
}

/// What is printed, as text or as JSON: each difference once it is found, and at the end how many there were.
struct Report {
    file: String,
    step: Step,
    json: bool,
    /// Whether anything has been printed. Of a file that is refused before, nothing is.
    begun: bool,
    vectors: usize,
    compared: usize,
    differ: usize,
}

impl Report {
    fn new(file: String, step: Step, json: bool) -> Report {
        Report { file, step, json, begun: false, vectors: 0, compared: 0, differ: 0 }
    }

    fn fill(&mut self, vectors: &mut Vectors, out: &mut dyn Write) -> Result<(), Fault> {
        let mut progress = Progress::start(Duration::from_millis(100));
        while let Some(vector) = vectors.read()? {
            let blocks = vector.blocks.chunks_exact(16).zip(vector.ciphertexts.chunks_exact(16)).enumerate();
            for (index, (block, ciphertext)) in blocks {
                self.vectors += 1;
                let [block, ciphertext] = [block, ciphertext].map(|bytes| bytes.try_into().expect("sixteen bytes"));
                for (what, made, expected) in made(&vector, &block, &ciphertext, self.step) {
                    self.compared += 1;
                    if made != expected {
                        self.difference(&vector, index, &what, [made, expected], out)?;
                    }
                }
            }
            progress.at(|_| count(self.vectors, "vector"));
        }
        match self.vectors {
            0 => Err(Fault::caller(format!("{}: no vector in it, and key, block and ciphertext are expected", self.file))),
            _ => Ok(()),
        }
    }

    fn difference(
        &mut self,
        vector: &Vector,
        index: usize,
        what: &str,
        blocks: [Block; 2],
        out: &mut dyn Write,
    ) -> io::Result<()> {
        let [made, expected] = blocks.map(|block| digits(&block));
        let place = match vector.blocks.len() {
            16 => vector.place.clone(),
            _ => format!("{}, block {}", vector.place, index + 1),
        };
        if self.json {
            self.begin(out)?;
            let comma = if self.differ > 0 { "," } else { "" };
            let (line, place) = (vector.line, json::string(&place));
            write!(out, "{comma}\n    {{\"line\": {line}, \"place\": {place}, \"command\": \"{what}\", ")?;
            write!(out, "\"made\": \"{made}\", \"expected\": \"{expected}\"}}")?;
        } else {
            writeln!(out, "{}, {place}, {what}: made {made}, expected {expected}", self.file)?;
        }
        self.differ += 1;
        self.begun = true;
        Ok(())
    }

    /// What stands in front of the first difference.
    fn begin(&mut self, out: &mut dyn Write) -> io::Result<()> {
        if !self.begun {
            let (file, step) = (json::string(&self.file), self.step.number());
            write!(out, "{{\n  \"file\": {file},\n  \"step\": {step},\n  \"differences\": [")?;
        }
        Ok(())
    }

    fn end(&mut self, out: &mut dyn Write) -> io::Result<()> {
        let Report { vectors, compared, differ, .. } = *self;
        if !self.json {
            return writeln!(out, "vectors {vectors}, compared {compared}, differ {differ}");
        }
        self.begin(out)?;
        let line = if differ > 0 { "\n  " } else { "" };
        writeln!(out, "{line}],\n  \"vectors\": {vectors},\n  \"compared\": {compared},\n  \"differ\": {differ}\n}}")
    }
}

/// What each call makes of a block or of its ciphertext, and what it should make.
fn made(vector: &Vector, block: &Block, ciphertext: &Block, step: Step) -> Vec<(String, Block, Block)> {
    let Vector { schedule, times, .. } = vector;
    let again = |from: &Block, make: &dyn Fn(&Block) -> Block| (0..*times).fold(*from, |block, _| make(&block));
    let mut made = vec![
        ("encrypt".to_string(), again(block, &|block| schedule.encrypt(block)), *ciphertext),
        ("decrypt".to_string(), again(ciphertext, &|block| schedule.decrypt(block)), *block),
    ];
    for offset in Offset::all() {
        let at = format!("--offset {} --step {}", offset.number(), step.number());
        let masked = again(block, &|block| schedule.encrypt_published(block, offset, step));
        let unmasked = again(ciphertext, &|block| schedule.decrypt_published(block, offset, step));
        made.push((format!("mask {at}"), masked, *ciphertext));
        made.push((format!("unmask {at}"), unmasked, *block));
    }
    made
}
