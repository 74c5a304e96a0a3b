//! Commands as they are typed. What is expected is from FIPS 197, the scope's own examples, or worked out here.

mod asked;
mod decryption;
mod drawn;
mod folder;
mod given;
mod input;
mod offsets;
mod random;
mod record;
mod report;
mod shorter;
mod steps;
mod stored;
mod stream;
mod tower;
mod vectors;
mod wrap;

use super::{help, run, COMMANDS};
use folder::Folder;
use std::ffi::OsString;
use std::fs;

const KEY: &str = "000102030405060708090a0b0c0d0e0f101112131415161718191a1b1c1d1e1f";
const NIST_KEY: &str = "603deb1015ca71be2b73aef0857d77811f352c073b6108d72d9810a30914dff4";
const BLOCK: &str = "00112233445566778899aabbccddeeff";
const CIPHERTEXT: &str = "8ea2b7ca516745bfeafc49904b496089";
const PUBLISHED: &str = "000f3639535c656a959aa3acc6c9f0ff";

/// What a command prints, on standard error too, and its message and status where it fails.
fn typed(line: &str, input: &str) -> (String, Option<(String, i32)>) {
    let words: Vec<OsString> = line.split_whitespace().map(OsString::from).collect();
    let (mut out, mut notes) = (Vec::new(), Vec::new());
    let failed = run(&words, &mut input.as_bytes(), &mut out, &mut notes).err();
    (String::from_utf8([out, notes].concat()).unwrap(), failed.map(|fault| (fault.message, fault.status)))
}

fn printed(line: &str) -> String {
    let (out, failed) = typed(line, "");
    assert_eq!(failed, None, "{line}");
    out
}

fn refused(line: &str) -> (String, i32) {
    let (out, failed) = typed(line, "");
    assert_eq!(out, "", "{line}");
    failed.expect(line)
}

#[test]
fn every_command_has_its_help() {
    for (name, _) in COMMANDS {
        assert!(printed("--help").contains(&format!("  {name:<12}")));
        assert!(printed(&format!("{name} --help")).contains(&format!("$ slipgrease {name} ")));
    }
}

/// What the last of some commands prints, each of which reads what the one before has printed.
fn piped(line: &str, input: &str) -> String {
    line.split(" | slipgrease ").fold(input.to_string(), |input, command| {
        let (out, failed) = typed(command, &input);
        assert_eq!(failed, None, "{line}");
        out
    })
}

/// An example whose last line is three dots is printed so far, and any other in full. The file of vectors has C.3 alone, the key is
/// that of C.3, the one of 16 bytes that of C.1 and NIST's that of SP 800-38A, and the partner's is wrapped as in RFC 3394, 4.6. What
/// one example writes to a file the next one reads.
#[test]
fn the_examples_of_the_help_print_what_they_show() {
    let folder = Folder::new("example");
    folder.file("vectors.txt", format!("{KEY} {BLOCK} {CIPHERTEXT}\n"));
    folder.file("key.txt", format!("{KEY}\n"));
    folder.file("key16.txt", format!("{}\n", &KEY[..32]));
    folder.file("nist.txt", format!("{NIST_KEY}\n"));
    folder.file("partner.txt", wrap::PARTNER_FILE);
    folder.file("ECBGFSbox256.rsp", vectors::gfsbox());
    folder.file("pipes.txt", stream::list());
    let clear = folder.file("clear.ts", stream::example());
    for (name, _) in COMMANDS {
        let said = help::of(name);
        let examples: String =
            said.lines().filter_map(|line| line.strip_prefix("    ")).map(|line| format!("{line}\n")).collect();
        for example in examples.split("$ slipgrease ").skip(1) {
            let (command, shown) = example.split_once('\n').unwrap();
            let (mut words, mut input) = (Vec::new(), String::new());
            for word in command.split(' ') {
                match (word.strip_prefix('<'), word.rsplit_once('.')) {
                    (Some(file), _) => input = fs::read_to_string(folder.path(file)).unwrap(),
                    (None, Some((_, "txt" | "ts"))) => words.push(folder.path(word)),
                    _ => words.push(word.to_string()),
                }
            }
            let printed = piped(&words.join(" "), &input);
            match shown.strip_suffix("...\n") {
                Some(beginning) => assert!(printed.starts_with(beginning), "{printed}"),
                None => assert_eq!(printed, shown),
            }
        }
    }
    assert_eq!(fs::read(folder.path("restored.ts")).unwrap(), fs::read(clear).unwrap());
}

#[test]
fn a_schedule_goes_from_one_command_to_the_next() {
    let schedule = printed(&format!("expand {KEY}"));
    let (out, failed) = typed(&format!("encrypt --schedule - {BLOCK}"), &schedule);
    assert_eq!((out.trim(), failed), (CIPHERTEXT, None));
}

#[test]
fn missing_arguments_are_read_from_standard_input() {
    let (out, failed) = typed("encrypt", &format!("{KEY}\n\n  {BLOCK}\n"));
    assert_eq!((out.trim(), failed), (CIPHERTEXT, None));
    let (out, failed) = typed(&format!("encrypt {KEY}"), BLOCK);
    assert_eq!((out.trim(), failed), (CIPHERTEXT, None));
    let message = "the block is missing: it is expected as an argument or on standard input; slipgrease encrypt --help says more";
    assert_eq!(refused(&format!("encrypt {KEY}")), (message.to_string(), 1));
}

#[test]
fn the_module_makes_the_ciphertext_and_the_plaintext_at_every_offset() {
    for offset in 0..16 {
        for (command, block, made) in [("mask", BLOCK, CIPHERTEXT), ("unmask", CIPHERTEXT, BLOCK)] {
            assert_eq!(printed(&format!("{command} --offset {offset} {KEY} {block}")).trim(), made);
            assert_eq!(printed(&format!("{command} {KEY} {block} --masks {BLOCK} --offset {offset}")).trim(), made);
        }
    }
}

/// SP 800-38A, F.1.5, its last block before the third.
#[test]
fn blocks_are_made_in_their_order() {
    let key = NIST_KEY;
    let (third, last) = ("30c81c46a35ce411e5fbc1191a0a52ef", "f69f2445df4f9b17ad2b417be66c3710");
    let made = printed(&format!("blocks --offsets 3,15 {key} {last} {third}"));
    assert_eq!(made, "23304b7a39f9f3ff067d8d8f9e24ecc7\nb6ed21b99ca6f4f9f153e7b1beafed1d\n");
    let (out, failed) = typed("blocks --offsets 0,15,07", &format!("{KEY}\n{BLOCK} {BLOCK}\n{BLOCK}\n"));
    assert_eq!((out, failed), (format!("{CIPHERTEXT}\n").repeat(3), None));
    let (out, failed) = typed(&format!("blocks --offsets= {KEY}"), "");
    assert_eq!((out.as_str(), failed), ("", None));
}

/// They all differ, but their upper four bits are 0.
#[test]
fn masks_00_to_0f_are_unfit() {
    assert_eq!(typed("fitness 000102030405060708090a0b0c0d0e0f", ""), ("0 unfit\n".to_string(), Some((String::new(), 3))));
}

/// What was wrong, where, what was expected, and the library's number, sorted by the library.
#[test]
fn refusals_say_what_was_wrong() {
    let short = &KEY[2..];
    let sheet = "4d534b0001";
    let cases = [
        (format!("expand {short}"), "key, argument 1: 31 bytes: the key is not 16, 24 or 32 bytes long (reply 1, KEY_LENGTH)", 1),
        (
            format!("encrypt --schedule {KEY} {BLOCK}"),
            "schedule, option --schedule: 32 bytes: a schedule is 176, 208 or 240 bytes (reply 2, SCHEDULE_LENGTH)",
            1,
        ),
        (format!("decrypt {KEY} {KEY}"), "block, argument 2: 32 bytes: a block is 16 bytes (reply 3, INPUT_LENGTH)", 1),
        (
            format!("record --offset 0 --masks 00 {KEY} {BLOCK}"),
            "masks, option --masks: 1 byte: the mask table is not 16 bytes long (reply 5, MASKS_LENGTH)",
            1,
        ),
        (format!("mask --offset 16 {KEY} {BLOCK}"), "--offset 16: an offset is 0 to 15 (reply 6, OFFSET_RANGE)", 1),
        (format!("mask --offset 272 {KEY} {BLOCK}"), "--offset 272: an offset is 0 to 15 (reply 6, OFFSET_RANGE)", 1),
        (format!("unmask --offset 16 {KEY} {BLOCK}"), "--offset 16: an offset is 0 to 15 (reply 6, OFFSET_RANGE)", 1),
        (format!("record --decrypt --offset 16 {KEY} {BLOCK}"), "--offset 16: an offset is 0 to 15 (reply 6, OFFSET_RANGE)", 1),
        (
            format!("unmask --offset 16 --masks 00 {KEY} {BLOCK}"),
            "masks, option --masks: 1 byte: the mask table is not 16 bytes long (reply 5, MASKS_LENGTH)",
            1,
        ),
        (
            format!("blocks --offsets 0 {KEY} {BLOCK} 00"),
            "blocks, the last arguments: 17 bytes: a block is 16 bytes, and at most 256 are taken (reply 3, INPUT_LENGTH)",
            1,
        ),
        (
            format!("blocks --offsets 0 {KEY} {BLOCK} {BLOCK}"),
            "--offsets: 1 offset for 2 blocks: there is not one offset for each block (reply 14, OFFSETS_LENGTH)",
            1,
        ),
        (
            format!("blocks --offsets 0,16 {KEY} {BLOCK} {BLOCK}"),
            "--offsets, for block 2: 16: an offset is 0 to 15 (reply 6, OFFSET_RANGE)",
            1,
        ),
        (
            format!("sheet read {sheet}"),
            "sheet, argument 2: 5 bytes: the sheet is not 21 bytes long; in version 2, not 22 (reply 11, SHEET_LENGTH)",
            2,
        ),
        (
            format!("sheet read 00{}{PUBLISHED}", &sheet[2..]),
            "sheet, argument 2: 21 bytes: the sheet does not begin with its mark, 4d 53 4b (reply 12, MARK_WRONG)",
            2,
        ),
        (
            format!("sheet read 4d534b0003{PUBLISHED}"),
            "sheet, argument 2: 21 bytes: the sheet's version is neither 1 nor 2 (reply 13, VERSION_UNKNOWN)",
            2,
        ),
    ];
    for (line, message, status) in cases {
        assert_eq!(refused(&line), (message.to_string(), status));
    }
}

#[test]
fn what_never_reaches_the_library_is_a_caller_fault() {
    let cases = [
        ("expand 0g", "key, argument 1: 'g' at digit 2 is not a hex digit"),
        ("expand 012", "key, argument 1: 3 hex digits, and a byte is two"),
        ("sheet burn", "sheet burn: read or write is expected"),
        ("melt", "no command melt; slipgrease --help lists them"),
        ("expand --fast 00", "no option --fast here; slipgrease expand --help says more"),
        ("expand --schedule", "no option --schedule here; slipgrease expand --help says more"),
        (
            "encrypt --schedule",
            "--schedule is the last word, and a value is expected behind it; slipgrease encrypt --help says more",
        ),
        (
            "mask --offset x",
            "--offset x: a decimal number from 0 to 15 is expected, or sixteen with commas between them; slipgrease mask --help \
             says more",
        ),
        ("wrap --offset x", "--offset x: a decimal number from 0 to 15 is expected; slipgrease wrap --help says more"),
        ("mask --offset 1 --offset 2", "--offset is given twice; slipgrease mask --help says more"),
        ("record --decrypt 00 --decrypt", "--decrypt is given twice; slipgrease record --help says more"),
        ("mask --offset 1 --decrypt 00", "no option --decrypt here; slipgrease mask --help says more"),
        ("fitness 00 00", "argument 2 is one word too many; slipgrease fitness --help says more"),
    ];
    for (line, message) in cases {
        assert_eq!(refused(line), (message.to_string(), 1));
    }
    for command in ["mask", "unmask"] {
        let without = refused(&format!("{command} {KEY} {BLOCK}"));
        assert_eq!(without.1, 1);
        assert!(without.0.starts_with("--offset is missing"));
    }
}

#[test]
fn a_masked_record_has_each_state_with_its_mask() {
    let said = printed(&format!("record --offset 0 {KEY} {BLOCK}"));
    let rows: Vec<Vec<&str>> = said.lines().skip(2).map(|line| line.split_whitespace().collect()).collect();
    assert_eq!(rows.len(), 71);
    assert_eq!(rows[0], ["0", "block", BLOCK, PUBLISHED, "001e140a1709031d1d0309170a141e00", "Mask(0)"]);
    // The scope: ShiftRows(Mask(14)) begins f0 39 95 c9.
    assert_eq!(rows[69][..3], ["69", "key", "14"]);
    assert!(rows[69][4].starts_with("f03995c9"));
    assert_eq!(rows[69][6], "ShiftRows(Mask(14))");
    assert_eq!(rows[70], ["70", "ciphertext", CIPHERTEXT, "00000000000000000000000000000000", CIPHERTEXT, "none"]);
}

#[test]
fn the_pipe_s_key_is_the_rack_s_sixteen_times() {
    let said = printed(&format!("pipe {KEY} {BLOCK}"));
    assert_eq!(said.matches(CIPHERTEXT).count(), 17);
    assert!(said.contains("\n16 of 16 offsets give the rack's key. "));
    // All points but the last are covered; the block at offset 15 is covered by ff, 00, 0f, ..
    assert!(said.contains(" 70 of 71 recorded states\n"));
    assert!(said.contains("\n  15  ff112d05"));
    assert!(said.lines().count() <= 24 && said.lines().all(|line| line.len() <= 80));
}
