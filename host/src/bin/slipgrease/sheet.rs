//! The mask sheet, and whether masks are fit.

use crate::fault::Fault;
use crate::hex::digits;
use crate::shown::brief;
use crate::words::{Given, Number, Words};
use slipgrease::{Masks, Refusal, Step};
use std::io::Write;

pub fn sheet(words: &mut Words, out: &mut dyn Write) -> Result<(), Fault> {
    let step = words.number_of("step")?;
    let (direction, _) = words.word("word read or write")?;
    match (direction.as_str(), step) {
        ("read", None) => read(words, out),
        ("read", Some(_)) => Err(Fault::caller("sheet read: the step is in the sheet, and --step is for sheet write")),
        ("write", step) => write(words, step, out),
        (other, _) => Err(Fault::caller(format!("sheet {}: read or write is expected", brief(other)))),
    }
}

fn read(words: &mut Words, out: &mut dyn Write) -> Result<(), Fault> {
    let sheet = words.bytes("sheet")?;
    words.end()?;
    let (masks, step) = taken(&sheet)?;
    writeln!(out, "{masks}\nstep {step}")?;
    Ok(())
}

/// The masks and the step of a sheet.
pub fn taken(sheet: &Given) -> Result<(Masks, Step), Fault> {
    Masks::from_sheet(&sheet.bytes).map_err(|refusal| match (refusal, sheet.bytes.get(21)) {
        (Refusal::StepWrong, Some(step)) => {
            let seen = format!("{}, {}: step {step}", sheet.what, sheet.place);
            Fault::refused_as(refusal, &seen, "a sheet of version 2 has a step from 4 to 15")
        }
        _ => sheet.refused(refusal),
    })
}

fn write(words: &mut Words, step: Option<Number>, out: &mut dyn Write) -> Result<(), Fault> {
    let masks = words.bytes("masks")?;
    words.end()?;
    let number = Number::step(&step);
    let mut sheet = vec![0; if number == 1 { 21 } else { 22 }];
    slipgrease::write_sheet(&masks.bytes, number, &mut sheet).map_err(|refusal| match (refusal, step) {
        (Refusal::StepWrong, Some(step)) => step.refused(refusal),
        _ => masks.refused(refusal),
    })?;
    writeln!(out, "{}", digits(&sheet))?;
    Ok(())
}

pub fn fitness(words: &mut Words, out: &mut dyn Write) -> Result<(), Fault> {
    let masks = words.bytes("masks")?;
    words.end()?;
    let fit = slipgrease::fitness(&masks.bytes).map_err(|refusal| masks.refused(refusal))?;
    writeln!(out, "{} {}", u8::from(fit), if fit { "fit" } else { "unfit" })?;
    match fit {
        true => Ok(()),
        false => Err(Fault::no()),
    }
}
