//! An offset for each byte, of the commands that take one.

use super::{printed, refused, typed, BLOCK, CIPHERTEXT, KEY, PUBLISHED};

pub const SIXTEEN: &str = "3,9,0,15,7,7,12,4,1,10,2,8,5,14,6,11";

/// The sixteen that one offset is short for.
pub fn in_full(offset: usize) -> String {
    (0..16).map(|i| ((offset + i) % 16).to_string()).collect::<Vec<_>>().join(",")
}

#[test]
fn the_module_makes_the_ciphertext_and_the_plaintext_at_sixteen_offsets() {
    let same = vec!["15"; 16].join(",");
    for (command, block, made) in [("mask", BLOCK, CIPHERTEXT), ("unmask", CIPHERTEXT, BLOCK)] {
        for offsets in [SIXTEEN, &same, &in_full(9)] {
            for step in [1, 4, 5, 15] {
                assert_eq!(printed(&format!("{command} --offset {offsets} --step {step} {KEY} {block}")).trim(), made);
            }
            assert_eq!(printed(&format!("{command} --masks {BLOCK} --offset={offsets} {KEY} {block}")).trim(), made);
            let (out, failed) = typed(&format!("{command} --offset - {KEY} {block}"), offsets);
            assert_eq!((out.trim(), failed), (made, None));
        }
    }
}

/// In every command, the second run of a record included.
#[test]
fn offsets_that_are_wrong_are_named() {
    let count = "one is expected, or sixteen with commas between them (reply 24, OFFSET_PER_BYTE)";
    let range = "an offset is 0 to 15 (reply 6, OFFSET_RANGE)";
    let digits = "sixteen decimal numbers from 0 to 15 are expected, with commas between them";
    let fifteen = SIXTEEN.strip_suffix(",11").unwrap();
    let cases = [
        ("3,4".to_string(), format!(" 3,4: 2 offsets: {count}"), false),
        (fifteen.to_string(), format!(" 3,9,..: 15 offsets: {count}"), false),
        (format!("{SIXTEEN},0"), format!(" 3,9,..: 17 offsets: {count}"), false),
        (format!("{SIXTEEN},16"), format!(" 3,9,..: 17 offsets: {count}"), false),
        (format!("16,{fifteen}"), format!(", for byte 0: 16: {range}"), false),
        (format!("{fifteen},16"), format!(", for byte 15: 16: {range}"), false),
        (format!("{fifteen},272"), format!(", for byte 15: 272: {range}"), false),
        (SIXTEEN.replace("12", "016"), format!(", for byte 6: 016: {range}"), false),
        (SIXTEEN.replace("12", "0xc"), format!(", for byte 6: 0xc: {digits}"), true),
        ("3,".to_string(), format!(", for byte 1: '': {digits}"), true),
        (",".to_string(), format!(", for byte 0: '': {digits}"), true),
        ("256".to_string(), format!(" 256: {range}"), false),
    ];
    for (offsets, message, is_usage) in cases {
        for line in [
            format!("mask --offset {offsets} {KEY} {BLOCK}"),
            format!("mask --offset {offsets} --masks {PUBLISHED} {KEY} {BLOCK}"),
            format!("unmask --offset {offsets} --step 5 {KEY} {BLOCK}"),
            format!("record --offset {offsets} {KEY} {BLOCK}"),
            format!("record --decrypt --offset {offsets} --offset2 3 {KEY} {BLOCK}"),
            format!("record --offset 3 --offset2 {offsets} {KEY} {BLOCK}"),
        ] {
            let (command, _) = line.split_once(' ').unwrap();
            let option = if line.contains("--offset 3 --offset2") { "--offset2" } else { "--offset" };
            let more = if is_usage { format!("; slipgrease {command} --help says more") } else { String::new() };
            assert_eq!(refused(&line), (format!("{option}{message}{more}"), 1), "{line}");
        }
    }
}

/// What the library looks at first is told first.
#[test]
fn offsets_are_judged_between_masks_and_step() {
    let cases = [
        ("mask --offset 3,4 --masks 00", "masks, option --masks: 1 byte: "),
        ("unmask --offset 3,4 --step 2", "--offset 3,4: 2 offsets: "),
        ("record --offset 3,16 --step 2", "--offset 3,16: 2 offsets: "),
    ];
    for (line, beginning) in cases {
        let (message, status) = refused(&format!("{line} {KEY} {BLOCK}"));
        assert!(message.starts_with(beginning) && status == 1, "{message}");
    }
}

/// These have one for a block, or for the whole of what they do.
#[test]
fn other_commands_take_one_offset() {
    for command in ["wrap", "unwrap"] {
        let (message, _) = refused(&format!("{command} --offset {SIXTEEN} {KEY} {BLOCK}"));
        assert!(message.starts_with("--offset 3,9,..: a decimal number from 0 to 15 is expected; "), "{message}");
    }
    let sixteen_for_one = refused(&format!("blocks --offsets {SIXTEEN} {KEY} {BLOCK}"));
    assert!(sixteen_for_one.0.starts_with("--offsets: 16 offsets for 1 block: "), "{}", sixteen_for_one.0);
    let (message, _) = refused(&format!("convert {BLOCK} {SIXTEEN}"));
    assert!(message.ends_with(": a decimal number from 0 to 15 is expected"), "{message}");
}
