//! Blocks that early modules stored in form 1, made standard: one that is given, or one for each line of standard input.

use crate::fault::Fault;
use crate::hex::digits;
use crate::input::Input;
use crate::shown::{brief, count};
use crate::words::{given, number, words_of, Given, Words};
use slipgrease::{Block, Refusal};
use std::io::Write;

/// As many lines are taken as are kept until all of them were looked at.
const LINES: usize = 1 << 16;

pub fn convert(words: &mut Words, out: &mut dyn Write) -> Result<(), Fault> {
    let blocks = match words.input_alone()? {
        true => of_lines(words.input())?,
        false => vec![of_arguments(words)?],
    };
    for block in blocks {
        writeln!(out, "{}", digits(&block))?;
    }
    Ok(())
}

fn of_arguments(words: &mut Words) -> Result<Block, Fault> {
    let stored = words.bytes("stored block")?;
    let (offset, place) = words.word("offset")?;
    words.end()?;
    standard(&stored, &offset, &place)
}

/// A stored block and its offset to a line. A line that is wrong is told before any block is printed.
fn of_lines(input: &mut Input) -> Result<Vec<Block>, Fault> {
    let mut blocks = Vec::new();
    while let Some((line, text)) = input.line()? {
        let place = format!("line {line} of {}", input.name);
        let (stored, offset) = match words_of(&text)[..] {
            [] => continue,
            [stored, offset] => (given("stored block", place.clone(), stored)?, offset.to_string()),
            ref words => {
                let count = count(words.len(), "word");
                return Err(Fault::caller(format!("{place}: {count}, and a stored block and its offset are expected")));
            }
        };
        if blocks.len() == LINES {
            return Err(Fault::caller(format!(
                "{place}: more than {LINES} stored blocks, and at most so many are expected at once"
            )));
        }
        blocks.push(standard(&stored, &offset, &place)?);
    }
    if blocks.is_empty() {
        return Err(Fault::caller("standard input: no stored block in it, and one to a line is expected, with its offset"));
    }
    Ok(blocks)
}

fn standard(stored: &Given, offset: &str, place: &str) -> Result<Block, Fault> {
    let seen = format!("offset, {place}: {}", brief(offset));
    let offset = number(offset).ok_or_else(|| Fault::caller(format!("{seen}: a decimal number from 0 to 15 is expected")))?;
    let mut output = [0; 16];
    slipgrease::convert(&stored.bytes, &mut output, offset).map_err(|refusal| match refusal {
        Refusal::OffsetRange => Fault::refused(refusal, &seen),
        _ => stored.refused(refusal),
    })?;
    Ok(output)
}
