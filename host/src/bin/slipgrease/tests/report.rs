//! Reports of mask sheets: their lines, what they come to, and their pictures.

use super::drawn::{cells, contrast, ink, linear};
use super::{printed, refused, run, typed, Folder, PUBLISHED};
use std::ffi::OsString;
use std::fs::{self, Permissions};
use std::os::unix::fs::PermissionsExt;

/// The sheet of the published masks, and of 00 to 0f.
pub const SHEET: &str = "4d534b0001000f3639535c656a959aa3acc6c9f0ff";
const UNFIT_SHEET: &str = "4d534b0001000102030405060708090a0b0c0d0e0f";

/// What another program has worked out of the published sheet, and that sheet in its own bytes.
const EXPECTED: &str = include_str!("../../../../../crates/report/stdout");
const OWN_BYTES: &[u8; 21] = include_bytes!("../../../../../crates/report/stdin");

/// What a report says of bytes on standard input, and its message and status where it fails.
fn reported(line: &str, input: &[u8]) -> (String, Option<(String, i32)>) {
    let words: Vec<OsString> = line.split(' ').map(OsString::from).collect();
    let mut out = Vec::new();
    let failed = run(&words, &mut &input[..], &mut out, &mut Vec::new()).err();
    (String::from_utf8(out).unwrap(), failed.map(|fault| (fault.message, fault.status)))
}

/// Of any step the report is the same.
#[test]
fn a_report_has_every_line() {
    assert_eq!(EXPECTED.lines().count(), 6273);
    assert_eq!(printed(&format!("report {SHEET}")), EXPECTED);
    assert_eq!(printed(&format!("report 4d534b0002{PUBLISHED}0f")), EXPECTED);
}

#[test]
fn a_sheet_comes_as_digits_or_in_its_own_bytes() {
    for line in ["report", "report -", "report --"] {
        assert_eq!(typed(line, &format!("\n {SHEET}\n")), (EXPECTED.to_string(), None), "{line}");
        assert_eq!(reported(line, OWN_BYTES), (EXPECTED.to_string(), None), "{line}");
    }
    let version_2 = [b"MSK\x00\x02", &OWN_BYTES[5..], &[5]].concat();
    assert_eq!(reported("report", &version_2), (EXPECTED.to_string(), None));
    // Where the sheet is an argument, standard input is not looked at.
    assert_eq!(reported(&format!("report {SHEET}"), b"MSK"), (EXPECTED.to_string(), None));
}

/// As the reader says it of each, and of a byte too many too.
#[test]
fn a_sheet_that_is_refused_has_no_report() {
    let length = "the sheet is not 21 bytes long; in version 2, not 22 (reply 11, SHEET_LENGTH)";
    let mark = "the sheet does not begin with its mark, 4d 53 4b (reply 12, MARK_WRONG)";
    let version = "the sheet's version is neither 1 nor 2 (reply 13, VERSION_UNKNOWN)";
    let step = "a sheet of version 2 has a step from 4 to 15 (reply 15, STEP_WRONG)";
    let masks = &OWN_BYTES[5..];
    let cases = [
        ([b"MS", &[][..], &[]].concat(), "2 bytes", length, 2),
        ([b"MSK\x00\x01", &masks[1..], &[]].concat(), "20 bytes", length, 2),
        ([b"MSK\x00\x01", masks, b"\n"].concat(), "22 bytes", length, 2),
        ([b"MSK\x00\x02", masks, &[5, 5]].concat(), "23 bytes", length, 2),
        ([b"mSK\x00\x01", masks, &[]].concat(), "21 bytes", mark, 2),
        ([b"MSK\x01\x00", masks, &[]].concat(), "21 bytes", version, 2),
        ([b"MSK\x00\x02", masks, &[3]].concat(), "step 3", step, 1),
    ];
    for (bytes, seen, said, status) in cases {
        let digits: String = bytes.iter().map(|byte| format!("{byte:02x}")).collect();
        assert_eq!(refused(&format!("report {digits}")), (format!("sheet, argument 1: {seen}: {said}"), status));
        for options in ["", " --summary", " --svg -"] {
            let told = reported(&format!("report{options}"), &bytes);
            assert_eq!(told, (String::new(), Some((format!("sheet, standard input: {seen}: {said}"), status))));
        }
    }
    assert_eq!(typed("report", "4g").1.unwrap().0, "sheet, word 1 of standard input: 'g' at digit 2 is not a hex digit");
}

/// The numbers of the last line, for each row. In the other rows of the masks 00 to 0f four triples of a byte are even.
#[test]
fn a_summary_has_a_line_for_each_row() {
    let rows = |sheet: &str| -> Vec<Vec<String>> {
        let said = printed(&format!("report --summary {sheet}"));
        assert!(said.lines().all(|line| line.len() == said.lines().next().unwrap().len()), "{said}");
        said.lines().map(|line| line.split_whitespace().map(str::to_string).collect()).collect()
    };
    let published = rows(SHEET);
    assert_eq!(published.len(), 1 + 7 + 1);
    assert_eq!(published[0], ["row", "even", "of", "lowest", "highest"]);
    assert_eq!(published[1], ["1", "covered", "block", "896", "896", "2", "2"]);
    assert_eq!(published[8], ["all", "5440", "6272", "0", "7"]);
    let even = published[1..8].iter().map(|row| row[row.len() - 4].parse::<usize>().unwrap());
    assert_eq!(even.collect::<Vec<_>>(), [896, 896, 896, 896, 5440 - 6 * 896, 896, 896]);
    for row in [1, 2, 3, 4, 6, 7] {
        let unfit = rows(UNFIT_SHEET)[row].clone();
        assert_eq!(unfit[unfit.len() - 4..], ["64", "896", "0", "16"]);
    }
}

/// The published masks with one bit changed, that of some mask.
fn with_a_wrong_bit(bit: usize) -> String {
    let mut masks: Vec<u8> = OWN_BYTES.to_vec();
    masks[5 + 11] ^= 1 << bit;
    masks.iter().map(|byte| format!("{byte:02x}")).collect()
}

/// The 35 of 56 triples are even that are without the wrong bit.
#[test]
fn a_picture_shows_where_a_sheet_is_weak() {
    let samples = 2 * 9;
    for (sheet, even) in [(SHEET.to_string(), "56"), (UNFIT_SHEET.to_string(), "4"), (with_a_wrong_bit(3), "35")] {
        let svg = printed(&format!("report --svg - {sheet}"));
        let cells = cells(&svg);
        assert_eq!(cells.len(), 7 * 16 + samples);
        for (row, cells) in cells[..7 * 16].chunks(16).enumerate().filter(|(row, _)| *row != 4) {
            assert!(cells.iter().all(|(written, ..)| *written == even), "{row}: {cells:?}");
            assert!(cells.iter().all(|(_, _, fill)| (*fill == "#ffffff") == (even == "56")), "{row}: {cells:?}");
        }
        assert!(svg.contains(&format!(">masks {}", &sheet[10..])) && svg.contains(">after MixColumns</text>"));
        assert!(svg.starts_with("<svg ") && svg.ends_with("</svg>\n"));
    }
}

/// What is said in a picture: whether the masks are fit, and the bits that no even triple has.
#[test]
fn a_picture_tells_what_is_seen() {
    let line = |sheet: &str, beginning: &str| {
        let svg = printed(&format!("report --svg - {sheet}"));
        let said = svg.lines().find_map(|line| line.split_once(&format!(">{beginning}: "))).unwrap().1.to_string();
        said.split_once(';').unwrap().0.to_string()
    };
    assert_eq!(line(SHEET, "fit"), "all triples outside row 5 are even");
    let of_00_to_0f = "384 of 5376 triples outside row 5 are even, none of them with bits 4, 5, 6 and 7";
    assert_eq!(line(UNFIT_SHEET, "unfit"), of_00_to_0f);
    for bit in 0..8 {
        let expected = format!("3360 of 5376 triples outside row 5 are even, none of them with bit {bit}");
        assert_eq!(line(&with_a_wrong_bit(bit), "unfit"), expected);
    }
    assert_eq!(line(&format!("4d534b0001{}", "5a".repeat(16)), "unfit"), "no triple outside row 5 is even");
}

/// For who sees no colours too: more even triples are lighter, and every number is read with a contrast of 4.5.
#[test]
fn lightness_tells_how_many_are_even() {
    let svg = printed(&format!("report --svg - {SHEET}"));
    let all = cells(&svg);
    for samples in all[7 * 16..].chunks(9) {
        let light = |fill: &str| linear(fill).iter().zip([0.2126, 0.7152, 0.0722]).map(|(part, of)| part * of).sum::<f64>();
        for pair in samples.windows(2) {
            assert!(pair[0].0.parse::<u8>().unwrap() < pair[1].0.parse().unwrap(), "{pair:?}");
            assert!(light(pair[1].2) - light(pair[0].2) > 0.02, "{pair:?}");
        }
        for (written, class, fill) in samples {
            assert!(contrast(ink(&svg, class), fill) >= 4.5, "{written} on {fill}");
        }
        assert_eq!((samples[0].0, samples[8]), ("0", ("56", "byte", "#ffffff")));
    }
}

/// A picture of masks is no secret: a file keeps its mode, and a new one has that of any other.
#[test]
fn a_picture_goes_to_a_file() {
    let folder = Folder::new("report");
    let (old, new) = (folder.file("old.svg", "x".repeat(1 << 20)), folder.path("new.svg"));
    fs::set_permissions(&old, Permissions::from_mode(0o640)).unwrap();
    for file in [&old, &new] {
        for sheet in [SHEET, UNFIT_SHEET] {
            assert_eq!(printed(&format!("report --svg {file} {sheet}")), "");
            assert_eq!(fs::read_to_string(file).unwrap(), printed(&format!("report --svg - {sheet}")));
        }
        let summary = printed(&format!("report --summary {SHEET}"));
        assert_eq!(printed(&format!("report --svg {file} --summary {SHEET}")), summary);
        assert_eq!(fs::read_to_string(file).unwrap(), printed(&format!("report --svg - {SHEET}")));
    }
    let mode = |file: &str| fs::metadata(file).unwrap().permissions().mode();
    assert_eq!((mode(&old) & 0o777, mode(&new)), (0o640, mode(&folder.file("any", ""))));
}

#[test]
fn a_picture_that_cannot_be_drawn_is_told() {
    let both = "--summary and --svg - cannot be given together: standard output takes one of them";
    assert_eq!(refused(&format!("report --summary --svg - {SHEET}")), (both.to_string(), 1));
    let folder = Folder::new("nowhere");
    let nowhere = folder.path("none/new.svg");
    for options in ["", "--summary "] {
        let told = refused(&format!("report {options}--svg {nowhere} {SHEET}")).0;
        assert!(told.starts_with(&format!("{nowhere}: No such file")), "{told}");
    }
}
