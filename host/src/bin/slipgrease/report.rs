//! The report of a mask sheet: all its lines, a summary of them, or a picture.

use crate::fault::Fault;
use crate::sheet;
use crate::svg;
use crate::words::Words;
use crate::written;
use slipgrease::{Report, Row, Summary};
use std::ffi::OsStr;
use std::io::Write;

pub fn report(words: &mut Words, out: &mut dyn Write) -> Result<(), Fault> {
    let (summary, picture) = (words.flag("summary")?, words.file_of("svg")?);
    if summary && picture.as_deref() == Some(OsStr::new("-")) {
        return Err(Fault::caller("--summary and --svg - cannot be given together: standard output takes one of them"));
    }
    let sheet = words.digits_or_own_bytes("sheet")?;
    words.end()?;
    let (masks, _) = sheet::taken(&sheet)?;
    let report = masks.report();
    match picture.as_deref() {
        Some(file) if file == "-" => out.write_all(svg::report(&report).as_bytes())?,
        Some(file) => written::write(file, &svg::report(&report), &words.files_read()?)?,
        None => (),
    }
    match (summary, picture) {
        (true, _) => out.write_all(table(&report).as_bytes())?,
        (false, Some(_)) => (),
        (false, None) => writeln!(out, "{report}")?,
    }
    Ok(())
}

/// A row to a line, and one for all.
fn table(report: &Report) -> String {
    let width = Row::all().map(|row| row.to_string().len()).max().unwrap_or(0);
    let line = |number: &str, name: &str, of: usize, summary: Summary| {
        let (even, lowest, highest) = (summary.even(), summary.lowest(), summary.highest());
        format!("{number:>3}  {name:<width$}  {even:>5}  {of:>5}  {lowest:>6}  {highest:>7}\n")
    };
    let all = report.lines().len();
    let of_row = |row: Row| line(&row.number().to_string(), &row.to_string(), all / Row::all().count(), report.summary_of(row));
    let heading = format!("{:>3}  {:<width$}  {:>5}  {:>5}  {:>6}  {:>7}\n", "row", "", "even", "of", "lowest", "highest");
    heading + &Row::all().map(of_row).collect::<String>() + &line("all", "", all, report.summary())
}
