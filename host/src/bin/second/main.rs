//! The independent second program: `second SEED CASES [SPOILED]` compares every public call of the library with an
//! implementation of its own, on so many cases drawn from the seed, on every step, every form, every offset of every byte, every
//! length of a schedule beside those of keys and records, every length of key data and every header of a packet where there is one,
//! on all counts of some mask tables, and on all inputs of the calls that take bytes alone; and it compares blocks, keys and packets
//! with themselves, sealed and opened again.
//!
//! It prints for each call how many cases were compared and how many differ, and fails where any does. SPOILED names a call, or
//! `edges`: what is expected of it is then changed, so that each of its cases must differ.
//!
//! `second stream CLEAR SCRAMBLED PIPES even|odd` looks at a stream that the desk tool has scrambled, and `second report SHEET`
//! prints the report of the mask sheet in a file, as the proved program of make report should print it.

#![forbid(unsafe_code)]

mod answer;
mod bytes;
mod cases;
mod cipher;
mod compare;
mod counts;
mod edges;
mod field;
mod keys;
mod lent;
mod masked;
mod offsets;
mod packet;
mod packets;
mod random;
mod replies;
mod report;
mod sheet;
mod steps;
mod stream;
mod table;
mod tower;
mod trips;
mod wrap;
mod wraps;

use crate::bytes::BYTE_CALLS;
use crate::cipher::Boxes;
use crate::compare::{compare, compare_forms, Trial};
use crate::random::Random;
use crate::report::{Report, Tally};
use std::process::exit;

const USAGE: &str = "usage: second SEED CASES [SPOILED], or second stream CLEAR SCRAMBLED PIPES even|odd, or second report SHEET";

fn main() {
    let words: Vec<String> = std::env::args().skip(1).collect();
    let number = |i: usize| words.get(i).and_then(|word| word.parse().ok());
    let compared = match (number(0), number(1), &words[..]) {
        (Some(seed), Some(cases), [_, _]) => Ok(all(seed, cases as usize, "")),
        (Some(seed), Some(cases), [_, _, spoiled]) => Ok(all(seed, cases as usize, spoiled)),
        (_, _, [word, clear, made, list, parity]) if word == "stream" => stream::compare(clear, made, list, parity),
        (_, _, [word, sheet]) if word == "report" => counts::print(sheet),
        _ => Err(USAGE.into()),
    };
    match compared {
        Ok(same) => exit(i32::from(!same)),
        Err(fault) => {
            eprintln!("{fault}");
            exit(2)
        }
    }
}

/// Whether nothing differs.
fn all(seed: u64, cases: usize, spoiled: &str) -> bool {
    let boxes = Boxes::new();
    let mut random = Random::new(seed);
    let mut report = Report::start();
    let mut name_before = "";
    for call in table::calls() {
        // What has more cases than the drawn ones is compared once for a name.
        let is_first = call.name != name_before;
        let trial = || Trial { call, boxes: &boxes, spoiled: call.name == spoiled, tally: Tally::default() };
        let [mut drawn, mut every_step, mut every_form, mut every_byte] = [(); 4].map(|()| trial());
        let [mut every_schedule, mut every_length, mut every_header] = [(); 3].map(|()| trial());
        compare(&mut drawn, &mut random, cases);
        report.row(call.name, call.method, drawn.tally);
        if steps::compare(&mut every_step, &mut random) {
            report.row(call.name, "the same at every step", every_step.tally);
        }
        if compare_forms(&mut every_form, &mut random) {
            report.row(call.name, "the same in every form", every_form.tally);
        }
        if is_first && keys::compare(&mut every_schedule, &mut random) {
            report.row(call.name, "every length of a schedule", every_schedule.tally);
        }
        if is_first && offsets::compare(&mut every_byte, &mut random) {
            report.row(call.name, "every offset of every byte", every_byte.tally);
        }
        if wraps::compare(&mut every_length, &mut random) {
            report.row(call.name, "every length, offset and bit", every_length.tally);
        }
        if is_first && packets::compare(&mut every_header, &mut random) {
            report.row(call.name, "every header, length and PID", every_header.tally);
        }
        name_before = call.name;
    }
    trips::compare(&mut report, &mut random, &boxes, cases, spoiled);
    report.row("mask_count", "all of some tables", counts::compare(&mut random, spoiled == "mask_count"));
    for call in BYTE_CALLS {
        let tally = call.compare(&mut random, call.name == spoiled);
        report.row(call.name, call.method, tally);
    }
    report.row("edges", "the scope's numbers", edges::compare(spoiled == "edges"));
    report.end()
}
