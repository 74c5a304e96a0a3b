//! Reports of masks whose counts are worked out by hand, and that of the published ones.

use super::{Line, Report, Row};
use crate::masks::Masks;

/// What another program has worked out, of the definitions alone.
const PUBLISHED: &str = include_str!("../../../crates/report/stdout");

fn line(report: &Report, row: Row, byte: u8, bits: [u8; 3]) -> String {
    let is_it = |line: &&Line| (line.row(), line.byte(), line.bits()) == (row, byte, bits);
    report.lines().iter().find(is_it).unwrap().to_string()
}

#[test]
fn the_published_masks_have_the_report_that_was_worked_out() {
    assert_eq!(format!("{}\n", Masks::PUBLISHED.report()), PUBLISHED);
}

/// The lower four bits of the masks 00 to 0f count from 0 to 15, and the upper four are 0.
#[test]
fn masks_00_to_0f_are_even_in_their_lower_bits_alone() {
    let report = Masks::new(std::array::from_fn(|i| i as u8)).report();
    for row in Row::all().filter(|row| *row != Row::MixColumns) {
        for byte in 0..16 {
            assert_eq!(line(&report, row, byte, [1, 2, 3]), format!("{} {byte} 1 2 3 2 2 2 2 2 2 2 2", row.number()));
            assert_eq!(line(&report, row, byte, [0, 3, 4]), format!("{} {byte} 0 3 4 4 4 4 4 0 0 0 0", row.number()));
            assert_eq!(line(&report, row, byte, [0, 5, 7]), format!("{} {byte} 0 5 7 8 8 0 0 0 0 0 0", row.number()));
            assert_eq!(line(&report, row, byte, [5, 6, 7]), format!("{} {byte} 5 6 7 16 0 0 0 0 0 0 0", row.number()));
            assert_eq!(report.even_in(row, byte.into()), 4);
        }
        assert_eq!(report.summary_of(row).to_string(), "64 0 16");
    }
}

/// 02 times 80 is 1b, and 03 times 80 is 9b: at four offsets a byte has 1b, 9b, 80 and 80 after MixColumns, and else 00.
#[test]
fn one_mask_lies_over_a_byte_at_four_offsets_after_mix_columns() {
    for place in 0..16 {
        let mut masks = [0; 16];
        masks[place] = 0x80;
        let report = Masks::new(masks).report();
        for byte in 0..16 {
            assert_eq!(line(&report, Row::MixColumns, byte, [0, 1, 7]), format!("5 {byte} 0 1 7 12 0 0 1 2 0 0 1"));
            assert_eq!(line(&report, Row::MixColumns, byte, [2, 3, 4]), format!("5 {byte} 2 3 4 14 0 0 0 0 0 2 0"));
            assert_eq!(line(&report, Row::LastKey, byte, [0, 1, 7]), format!("7 {byte} 0 1 7 15 0 0 0 1 0 0 0"));
        }
    }
}

/// 02, 03, 01 and 01 come to 01, so that masks that are all alike are mixed to themselves.
#[test]
fn masks_that_are_alike_show_one_pattern() {
    let report = Masks::new([0x5a; 16]).report();
    assert_eq!(report.summary().to_string(), "0 0 16");
    // The bits 7, 5 and 3 of 5a are 0, 0 and 1.
    assert_eq!(line(&report, Row::MixColumns, 6, [3, 5, 7]), "5 6 3 5 7 0 16 0 0 0 0 0 0");
    assert!(Row::all().all(|row| (0..16).all(|byte| report.even_in(row, byte) == 0)));
}

#[test]
#[should_panic]
fn there_is_no_byte_16() {
    let _ = Masks::PUBLISHED.report().even_in(Row::Block, 16);
}
