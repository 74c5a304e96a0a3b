//! The report of a mask sheet as a picture: a cell for each row and byte, and the darker, the fewer of its triples are even.

use super::colour::{shade, UNEVEN, UNEVEN_ANYWAY};
use super::{baseline, lines, text, widest, Cell, Head, LINE, MARGIN};
use crate::shown::listed;
use slipgrease::{Line, Masks, Report, Row};
use std::fmt::Write;

const CELL_WIDTH: usize = 34;
const CELL_HEIGHT: usize = 26;
const BYTES: usize = 16;
const TRIPLES: usize = 56;
/// Row 5 stands apart from the others.
const GAP: usize = 10;
const NUMBERS: usize = 22;
const LEFT: usize = MARGIN + NUMBERS + 134;
const RIGHT: usize = LEFT + BYTES * CELL_WIDTH;

/// Cells are larger than those of a record, and so is what is written in them and beside them.
const LARGER: &str = "<style>\n.byte, .place, .name { font-size: 12px; }\n</style>\n";

const FOOT: [&str; 3] = [
    "A cell has how many of the 56 triples of its byte's bits are even: each of the eight patterns shows at exactly two of the sixteen \
     offsets.",
    "Row 5, in grey, is not under the balance: after MixColumns a mask is mixed of four, and fit ones can be uneven there.",
    "All this is the same in any round and with any step.",
];

pub fn report(report: &Report) -> String {
    let head = Head { title: "The mask report of a sheet".to_string(), lines: vec![masks(report.masks()), told(report)] };
    let top = head.bottom() + 58;
    let notes: Vec<String> = Row::all().map(|row| note(report, row)).collect();
    let samples_at = top_of(Row::LastKey, top) + CELL_HEIGHT + 22;
    let foot = samples_at + 2 * (CELL_HEIGHT + 4) + 26;
    let width = (RIGHT + 12 + widest(&notes)).max(MARGIN + widest(&head.lines).max(widest(&FOOT))) + MARGIN;
    let mut svg = head.drawn(width, foot + LINE * FOOT.len(), LARGER);
    text(&mut svg, "round", MARGIN, top - 7, "row");
    text(&mut svg, "caption", LEFT + BYTES * CELL_WIDTH / 2, top - 24, "byte");
    for byte in 0..BYTES {
        text(&mut svg, "place", LEFT + byte * CELL_WIDTH + CELL_WIDTH / 2, top - 7, &byte.to_string());
    }
    for (row, note) in Row::all().zip(&notes) {
        let y = top_of(row, top);
        let base = baseline(y, CELL_HEIGHT);
        text(&mut svg, "name", MARGIN, base, &row.number().to_string());
        text(&mut svg, "name", MARGIN + NUMBERS, base, &row.to_string());
        let counts: Vec<usize> = (0..BYTES).map(|byte| report.even_in(row, byte)).collect();
        cells(&mut svg, LEFT, y, hue(row), &counts);
        text(&mut svg, "name", RIGHT + 12, base, note);
    }
    samples(&mut svg, samples_at);
    lines(&mut svg, foot, &FOOT);
    svg.push_str("</svg>\n");
    svg
}

fn masks(masks: &Masks) -> String {
    format!("masks {masks}{}", if *masks == Masks::PUBLISHED { ", the published ones" } else { "" })
}

/// What the rows under the balance come to, and row 5. A bit that no even triple has is told: where one bit of one mask is wrong, it is
/// that one.
fn told(report: &Report) -> String {
    let balanced = report.lines().iter().filter(|line| line.row() != Row::MixColumns);
    let even: Vec<&Line> = balanced.clone().filter(|line| line.is_even()).collect();
    let without: Vec<String> =
        (0..8).filter(|bit| even.iter().all(|line| !line.bits().contains(bit))).map(|bit| bit.to_string()).collect();
    let fit = match (report.masks().are_fit(), even.len()) {
        (true, _) => "fit: all triples outside row 5 are even".to_string(),
        (false, 0) => "unfit: no triple outside row 5 is even".to_string(),
        (false, some) => format!("unfit: {some} of {} triples outside row 5 are even", balanced.count()),
    };
    let bits = match without.len() {
        0 | 8 => String::new(),
        bits => format!(", none of them with bit{} {}", if bits == 1 { "" } else { "s" }, listed(&without)),
    };
    format!("{fit}{bits}; in row 5, {} of {}", report.summary_of(Row::MixColumns).even(), BYTES * TRIPLES)
}

fn note(report: &Report, row: Row) -> String {
    let summary = report.summary_of(row);
    format!("{} of {} even, counts {} to {}", summary.even(), BYTES * TRIPLES, summary.lowest(), summary.highest())
}

fn top_of(row: Row, top: usize) -> usize {
    let gaps = [Row::MixColumns, Row::Compensation].into_iter().filter(|first| row >= *first).count();
    top + (usize::from(row.number()) - 1) * CELL_HEIGHT + gaps * GAP
}

fn hue(row: Row) -> [u8; 3] {
    match row {
        Row::MixColumns => UNEVEN_ANYWAY,
        _ => UNEVEN,
    }
}

/// Cells in a line, each with how many of its triples are even, and a thin line around each.
fn cells(svg: &mut String, left: usize, y: usize, hue: [u8; 3], counts: &[usize]) {
    let mut around = String::new();
    for (index, even) in counts.iter().enumerate() {
        let x = left + index * CELL_WIDTH;
        let cell = Cell { x, y, width: CELL_WIDTH, height: CELL_HEIGHT };
        cell.draw(svg, &coloured(hue, *even), "byte", &even.to_string());
        let _ = write!(around, "M{x} {y}h{CELL_WIDTH}v{CELL_HEIGHT}h-{CELL_WIDTH}z");
    }
    let _ = writeln!(svg, "<path d=\"{around}\" fill=\"none\" stroke=\"#999\"/>");
}

/// White where all triples are even. One that is not is seen already.
fn coloured(hue: [u8; 3], even: usize) -> String {
    let first = 14;
    match TRIPLES - even {
        0 => shade(hue, 0, 1),
        uneven => shade(hue, (first + uneven) as u32, (first + TRIPLES) as u32),
    }
}

/// What the cells look like, from none to all.
fn samples(svg: &mut String, y: usize) {
    let counts = [0, 8, 16, 24, 32, 40, 48, 55, 56];
    let said = ["of 56 triples are even; white is all", "the same in row 5"];
    for (index, (hue, said)) in [UNEVEN, UNEVEN_ANYWAY].into_iter().zip(said).enumerate() {
        let y = y + index * (CELL_HEIGHT + 4);
        cells(svg, MARGIN, y, hue, &counts);
        text(svg, "name", MARGIN + counts.len() * CELL_WIDTH + 12, baseline(y, CELL_HEIGHT), said);
    }
}
