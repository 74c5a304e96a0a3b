//! The step, wherever a command takes one. From label 5 on the published masks are 5c 65 6a 95 9a a3 ac c6 c9 f0 ff 00 0f 36 39
//! 53.

use super::record::differing;
use super::{printed, refused, typed, BLOCK, CIPHERTEXT, KEY, PUBLISHED};
use std::fs;

const TAKEN: [u8; 13] = [1, 4, 5, 6, 7, 8, 9, 10, 11, 12, 13, 14, 15];
const REFUSED: &str = "a step is 1, or 4 to 15 (reply 15, STEP_WRONG)";

#[test]
fn the_module_makes_the_ciphertext_and_the_plaintext_with_every_step() {
    for step in TAKEN {
        for (command, block, made) in [("mask", BLOCK, CIPHERTEXT), ("unmask", CIPHERTEXT, BLOCK)] {
            for offset in 0..16 {
                assert_eq!(printed(&format!("{command} --offset {offset} --step {step} {KEY} {block}")).trim(), made);
            }
            assert_eq!(printed(&format!("{command} --step {step} --offset 7 --masks {BLOCK} {KEY} {block}")).trim(), made);
        }
        let pipe = printed(&format!("pipe --step {step} {KEY} {BLOCK}"));
        assert!(pipe.contains(&format!("the published masks, step {step}, at each offset\n")));
        assert!(pipe.contains("\n16 of 16 offsets give the rack's key. "));
    }
}

#[test]
fn many_blocks_have_one_step() {
    for step in TAKEN {
        let made = printed(&format!("blocks --offsets 3,15 --step {step} {KEY} {BLOCK} {BLOCK}"));
        assert_eq!(made, format!("{CIPHERTEXT}\n").repeat(2));
    }
}

#[test]
fn a_record_has_the_masks_of_its_step() {
    let said = printed(&format!("record --offset 0 --step 5 {KEY} {BLOCK}"));
    assert!(said.starts_with("offset 0, step 5, the published masks, block "));
    let rows: Vec<Vec<&str>> = said.lines().skip(2).map(|line| line.split_whitespace().collect()).collect();
    let after_round_0 = "5c656a959aa3acc6c9f0ff000f363953";
    assert_eq!((&rows[1][..3], rows[1][4], rows[1][6]), (&["1", "key", "0"][..], PUBLISHED, "Mask(0)"));
    assert_eq!((&rows[2][..3], rows[2][4], rows[2][6]), (&["2", "boxes", "0"][..], after_round_0, "Mask(5)"));
    assert_eq!((&rows[5][..3], rows[5][4], rows[5][6]), (&["5", "compensation", "0"][..], after_round_0, "Mask(5)"));
    assert_eq!(rows[66][6], "Mask(1)", "13 * 5 is 65");
    assert_eq!(rows[69][6], "ShiftRows(Mask(6))");
    assert_eq!(rows[70][2], CIPHERTEXT);
}

/// Both runs begin under Mask(0); behind the first boxes they are under Mask(1) and Mask(4), which differ in all bytes.
#[test]
fn two_steps_stand_side_by_side() {
    let said = differing(&format!("record --offset 0 --step2 4 {KEY} {BLOCK}"));
    let rows: Vec<&str> = said.lines().collect();
    assert!(rows[0].starts_with("first:  offset 0, step 1, ") && rows[1].starts_with("second: offset 0, step 4, "));
    assert_eq!(rows[2], "The second has another step.");
    assert!(rows[4].ends_with(&format!("{}      0      0  Mask(0)", ".".repeat(32))), "{}", rows[4]);
    assert!(rows[5].ends_with(&format!("{}      0      0  Mask(0)", ".".repeat(32))), "{}", rows[5]);
    assert!(rows[6].ends_with(&format!("{}      0     16  Mask(1) / Mask(4)", "-".repeat(32))), "{}", rows[6]);
}

#[test]
fn a_sheet_keeps_its_step() {
    let version_1 = format!("4d534b0001{PUBLISHED}");
    assert_eq!(printed(&format!("sheet write {PUBLISHED}")), format!("{version_1}\n"));
    assert_eq!(printed(&format!("sheet write --step 1 {PUBLISHED}")), format!("{version_1}\n"));
    assert_eq!(printed(&format!("sheet read {version_1}")), format!("{PUBLISHED}\nstep 1\n"));
    for step in &TAKEN[1..] {
        let version_2 = format!("4d534b0002{PUBLISHED}{step:02x}");
        assert_eq!(printed(&format!("sheet write --step {step} {PUBLISHED}")), format!("{version_2}\n"));
        assert_eq!(printed(&format!("sheet read {version_2}")), format!("{PUBLISHED}\nstep {step}\n"));
    }
}

#[test]
fn a_step_that_is_not_taken_is_a_caller_fault() {
    for step in ["0", "2", "3", "16", "255", "257", "260"] {
        let expected = (format!("--step {step}: {REFUSED}"), 1);
        for line in [
            format!("mask --offset 0 --step {step} {KEY} {BLOCK}"),
            format!("mask --offset 0 --step {step} --masks {PUBLISHED} {KEY} {BLOCK}"),
            format!("unmask --offset 0 --step {step} {KEY} {BLOCK}"),
            format!("unmask --offset 0 --step {step} --masks {PUBLISHED} {KEY} {BLOCK}"),
            format!("blocks --offsets 0 --step {step} {KEY} {BLOCK}"),
            format!("record --offset 0 --step {step} {KEY} {BLOCK}"),
            format!("record --decrypt --offset 0 --step {step} {KEY} {BLOCK}"),
            format!("pipe --step {step} {KEY} {BLOCK}"),
            format!("vectors --step {step} none.txt"),
            format!("sheet write --step {step} {PUBLISHED}"),
            format!("sheet write --step {step} 00"),
        ] {
            assert_eq!(refused(&line), expected, "{line}");
        }
        let second = refused(&format!("record --offset 0 --step2 {step} {KEY} {BLOCK}"));
        assert_eq!(second, (format!("--step2 {step}: {REFUSED}"), 1));
    }
    let offset_first = refused(&format!("mask --offset 16 --step 2 {KEY} {BLOCK}"));
    assert_eq!(offset_first, ("--offset 16: an offset is 0 to 15 (reply 6, OFFSET_RANGE)".to_string(), 1));
}

#[test]
fn a_sheet_that_is_not_taken_says_why() {
    for step in [0, 1, 2, 3, 16, 255] {
        let refused_there = "a sheet of version 2 has a step from 4 to 15 (reply 15, STEP_WRONG)";
        let message = format!("sheet, argument 2: step {step}: {refused_there}");
        assert_eq!(refused(&format!("sheet read 4d534b0002{PUBLISHED}{step:02x}")), (message, 1));
    }
    let length = "the sheet is not 21 bytes long; in version 2, not 22 (reply 11, SHEET_LENGTH)";
    for (sheet, bytes) in [("4d534b00", 4), (&format!("4d534b0001{PUBLISHED}05"), 22), (&format!("4d534b0002{PUBLISHED}"), 21)] {
        assert_eq!(refused(&format!("sheet read {sheet}")), (format!("sheet, argument 2: {bytes} bytes: {length}"), 2));
    }
    for step in [1, 4] {
        let message = "masks, argument 2: 1 byte: the mask table is not 16 bytes long (reply 5, MASKS_LENGTH)";
        assert_eq!(refused(&format!("sheet write --step {step} 00")), (message.to_string(), 1));
    }
}

#[test]
fn a_step_stands_where_it_has_a_meaning() {
    let cases = [
        (format!("record --step 5 {KEY} {BLOCK}"), "a step is given and --offset is missing: a run without an offset is plain"),
        (
            format!("sheet read --step 5 4d534b0001{PUBLISHED}"),
            "sheet read: the step is in the sheet, and --step is for sheet write",
        ),
        (format!("encrypt --step 5 {KEY} {BLOCK}"), "no option --step here; slipgrease encrypt --help says more"),
    ];
    for (line, message) in cases {
        assert_eq!(refused(&line), (message.to_string(), 1));
    }
}

#[test]
fn vectors_are_run_with_a_step() {
    let file = std::env::temp_dir().join(format!("slipgrease-step-{}", std::process::id()));
    fs::write(&file, format!("{KEY} {BLOCK} {CIPHERTEXT}\n")).unwrap();
    assert_eq!(printed(&format!("vectors --step 5 {}", file.display())), "vectors 1, compared 34, differ 0\n");
    fs::write(&file, format!("{KEY} {BLOCK} {BLOCK}\n")).unwrap();
    let (out, _) = typed(&format!("vectors --step 5 {}", file.display()), "");
    assert!(out.contains("line 1, mask --offset 3 --step 5: made ") && out.contains("line 1, unmask --offset 3 --step 5: made "));
    fs::remove_file(file).unwrap();
}
