//! The main job: a pipe's key, made by the rack and by the module at each offset.

use crate::cipher::{explained, Keyed};
use crate::fault::Fault;
use crate::hex::digits;
use crate::words::Words;
use slipgrease::{Block, Masks, Offset, Schedule, Step};
use std::fmt;
use std::io::{self, Write};

pub fn pipe(words: &mut Words, out: &mut dyn Write) -> Result<(), Fault> {
    let json = words.flag("json")?;
    let step = words.taken_step()?;
    let (keyed, block) = Keyed::read(words, |words| words.bytes("block"))?;
    let mut at_the_rack = [0; 16];
    slipgrease::encrypt(&keyed.bytes, &block.bytes, &mut at_the_rack)
        .map_err(|refusal| explained(refusal, &keyed, &block, None))?;
    let schedule = Schedule::try_from(&keyed.bytes[..]).expect("the library has taken it");
    let block: Block = block.bytes.try_into().expect("the library has taken it");
    let made = Made::new(&schedule, block, at_the_rack, step);
    if json {
        made.print_json(out)?;
    } else {
        made.print(out)?;
    }
    match 16 - made.equal() {
        0 => Ok(()),
        1 => Err(Fault::data("1 of 16 offsets gives another key than the rack's")),
        others => Err(Fault::data(format!("{others} of 16 offsets give another key than the rack's"))),
    }
}

/// The key as the rack makes it, and as the module makes it at each offset.
struct Made {
    block: Block,
    at_the_rack: Block,
    step: Step,
    in_the_module: Vec<InTheModule>,
    /// How many states are recorded of a run; and how many of them, and of their bytes, differ from the rack's.
    recorded: usize,
    states: Range,
    bytes: Range,
}

struct InTheModule {
    offset: Offset,
    /// The block as it is covered, and the key.
    covered: Block,
    key: Block,
    equal: bool,
}

impl Made {
    fn new(schedule: &Schedule, block: Block, at_the_rack: Block, step: Step) -> Made {
        let plain = schedule.record(&block);
        let (mut states, mut bytes) = (Range::new(), Range::new());
        let in_the_module = Offset::all().map(|offset| {
            let key = schedule.encrypt_published(&block, offset, step);
            let covered = schedule.record_masked(&block, &Masks::PUBLISHED, offset, step);
            states.add(plain.states().zip(covered.states()).filter(|(x, y)| x.1 != y.1).count());
            bytes.add(plain.as_bytes().iter().zip(covered.as_bytes()).filter(|(x, y)| x != y).count());
            InTheModule { offset, covered: *covered.state(0), key, equal: key == at_the_rack }
        });
        let in_the_module = in_the_module.collect();
        Made { block, at_the_rack, step, in_the_module, recorded: plain.states().count(), states, bytes }
    }

    fn equal(&self) -> usize {
        self.in_the_module.iter().filter(|made| made.equal).count()
    }

    fn print(&self, out: &mut dyn Write) -> io::Result<()> {
        writeln!(out, "The pipe's key, made of the block {}", digits(&self.block))?;
        writeln!(out, "  {:<38}{}", "by the rack", digits(&self.at_the_rack))?;
        writeln!(out, "  by the module with the published masks, step {}, at each offset", self.step.number())?;
        writeln!(out, "  {:<38}{:<34}equal", "    the block as it is covered", "the key")?;
        for InTheModule { offset, covered, key, equal } in &self.in_the_module {
            let (number, equal) = (offset.number(), if *equal { "yes" } else { "NO" });
            writeln!(out, "  {number:>2}  {}  {}  {equal}", digits(covered), digits(key))?;
        }
        let gives = if self.equal() == 1 { "gives" } else { "give" };
        let (equal, recorded) = (self.equal(), self.recorded);
        writeln!(out, "{equal} of 16 offsets {gives} the rack's key. On the way {} of {recorded} recorded states", self.states)?;
        writeln!(out, "differ from the rack's, in {} of {} bytes.", self.bytes, 16 * recorded)
    }

    fn print_json(&self, out: &mut dyn Write) -> io::Result<()> {
        writeln!(out, "{{\n  \"block\": \"{}\",\n  \"rack\": \"{}\",", digits(&self.block), digits(&self.at_the_rack))?;
        writeln!(out, "  \"step\": {},\n  \"module\": [", self.step.number())?;
        for InTheModule { offset, covered, key, equal } in &self.in_the_module {
            let (number, covered, key) = (offset.number(), digits(covered), digits(key));
            let comma = if number < 15 { "," } else { "" };
            write!(out, "    {{\"offset\": {number}, \"covered\": \"{covered}\", \"key\": \"{key}\", ")?;
            writeln!(out, "\"equal\": {equal}}}{comma}")?;
        }
        writeln!(out, "  ],\n  \"equal\": {},", self.equal())?;
        let (states, bytes) = (self.states.json(self.recorded), self.bytes.json(16 * self.recorded));
        writeln!(out, "  \"states_differ\": {states},\n  \"bytes_differ\": {bytes}\n}}")
    }
}

/// The least and the greatest of some counts.
struct Range(usize, usize);

impl Range {
    fn new() -> Range {
        Range(usize::MAX, 0)
    }

    fn add(&mut self, count: usize) {
        *self = Range(self.0.min(count), self.1.max(count));
    }

    fn json(&self, of: usize) -> String {
        format!("{{\"least\": {}, \"most\": {}, \"of\": {of}}}", self.0, self.1)
    }
}

impl fmt::Display for Range {
    fn fmt(&self, f: &mut fmt::Formatter) -> fmt::Result {
        match self {
            Range(least, greatest) if least == greatest => write!(f, "{least}"),
            Range(least, greatest) => write!(f, "{least} to {greatest}"),
        }
    }
}
