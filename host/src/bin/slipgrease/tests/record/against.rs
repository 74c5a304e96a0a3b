//! What a receiver has dumped, beside the run. The dumps are the run's own states, spoiled as a module would.

use super::super::{printed, refused, run, typed, Folder, BLOCK, CIPHERTEXT, KEY, NIST_KEY, PUBLISHED};
use super::{column, differing, told, OTHER_KEY};
use crate::hex;
use std::ffi::OsString;
use std::io::{self, BufReader};
use std::sync::atomic::{AtomicUsize, Ordering};

/// The covered states of a run.
pub fn dumped(options: &str, block: &str) -> Vec<u8> {
    dumped_with(KEY, options, block)
}

pub fn dumped_with(key: &str, options: &str, block: &str) -> Vec<u8> {
    column(&printed(&format!("record {options} {key} {block}")), 2)
}

/// Mask(label), byte i of which is mask label + i.
fn mask(label: usize) -> Vec<u8> {
    let masks = hex::bytes(PUBLISHED).unwrap();
    (0..16).map(|i| masks[(label + i) % 16]).collect()
}

/// Xors a state with masks.
pub fn recover(dump: &mut [u8], state: usize, masks: &[Vec<u8>]) {
    for mask in masks {
        dump[16 * state..][..16].iter_mut().zip(mask).for_each(|(byte, mask)| *byte ^= mask);
    }
}

/// What is told of a dump, in its bytes and in lines of hex.
pub fn compared(options: &str, block: &str, dump: &[u8]) -> Vec<String> {
    // Tests that run at the same time have folders of their own.
    static FOLDERS: AtomicUsize = AtomicUsize::new(0);
    let folder = Folder::new(&format!("dump-{}", FOLDERS.fetch_add(1, Ordering::Relaxed)));
    let lines: String = dump.chunks(16).map(|state| format!("{}\r\n", hex::digits(state))).collect();
    let [bytes, lines] = [folder.file("dump.bin", dump), folder.file("dump.txt", format!("# a dump\n\n{lines}"))]
        .map(|file| differing(&format!("record {options} --against {file} {KEY} {block}")));
    assert_eq!(bytes.replace("dump.bin", "dump.txt"), lines);
    told(&bytes).into_iter().map(str::to_string).collect()
}

#[test]
fn a_dump_that_is_the_run_ends_with_0() {
    let folder = Folder::new("same");
    for (way, block, bytes) in [("", BLOCK, 1136), ("--decrypt", CIPHERTEXT, 1360)] {
        let options = format!("{way} --offset 3 --step 5");
        let dump = dumped(&options, block);
        let file = folder.file("dump", &dump);
        let said = printed(&format!("record {options} --against {file} {KEY} {block}"));
        assert!(said.contains("\ndump: ") && said.lines().nth(2).unwrap().contains("run  "));
        assert_eq!(told(&said), [format!("None of {bytes} bytes differs.")]);
        let spaced: String =
            dump.iter().enumerate().map(|(i, byte)| format!("{byte:02X}{}", if i % 16 == 15 { '\n' } else { ' ' })).collect();
        let (out, failed) = typed(&format!("record {options} --against - {KEY} {block}"), &spaced);
        assert_eq!((told(&out), failed), (vec![&*format!("None of {bytes} bytes differs.")], None));
        assert!(out.contains("\ndump: standard input\n"));
    }
}

/// The compensation of round 2 with the label behind the right one. In C.3 the state is 81 0d .. there.
#[test]
fn a_mask_of_another_label_is_named() {
    let mut dump = dumped("--offset 3", BLOCK);
    recover(&mut dump, 15, &[mask(6), mask(7)]);
    let expected = [
        "16 of 1136 bytes differ, in 1 of 71 states: 0 under the masks, 16 by the masks alone.",
        "First difference: state 15, byte 0 (compensation 2, round 2): run e4, dump eb.",
        "Covered by Mask(o+4) where Mask(o+3) is due (o = 3: Mask(7), Mask(6)).",
        "Under the masks nothing differs.",
    ];
    assert_eq!(compared("--offset 3", BLOCK, &dump), expected);
    // Then the boxes of the next round go wrong.
    dump[16 * 17 + 4] ^= 0x21;
    let more = compared("--offset 3", BLOCK, &dump);
    assert_eq!(more[0], "17 of 1136 bytes differ, in 2 of 71 states: 1 under the masks, 16 by the masks alone.");
    assert_eq!(more[1..3], expected[1..3]);
    assert_eq!(more[3], "First difference under the masks: state 17, byte 4 (boxes 3, round 3): xor 21.");
}

/// Labels advance by the step: the compensation of round 0 leaves Mask(o+5).
#[test]
fn labels_are_counted_with_the_step() {
    let mut dump = dumped("--offset 15 --step 5", BLOCK);
    recover(&mut dump, 5, &[mask(4), mask(15)]);
    let told = compared("--offset 15 --step 5", BLOCK, &dump);
    assert_eq!(told[2], "Covered by Mask(o) where Mask(o+5) is due (o = 15: Mask(15), Mask(4)).");
}

/// The last constant as 002 prints it leaves Mask(o+14) on the block. The first mask, 00, is at byte 15 there.
#[test]
fn a_mask_where_none_is_due_is_named() {
    let mut dump = dumped("--offset 3", BLOCK);
    recover(&mut dump, 70, &[mask(17)]);
    let expected = [
        "15 of 1136 bytes differ, in 1 of 71 states: 0 under the masks, 15 by the masks alone.",
        "First difference: state 70, byte 0 (ciphertext, round 13): run 8e, dump 81.",
        "Covered by Mask(o+14) where no mask is due (o = 3: Mask(1)).",
        "Under the masks nothing differs.",
    ];
    assert_eq!(compared("--offset 3", BLOCK, &dump), expected);
}

#[test]
fn a_state_without_its_mask_is_told() {
    let mut dump = dumped("--offset 3", BLOCK);
    recover(&mut dump, 1, &[mask(3)]);
    assert_eq!(compared("--offset 3", BLOCK, &dump)[2], "Not covered where Mask(o) is due (o = 3: Mask(3)).");
}

/// A decryption that shifts the rows of the state and not of the mask.
#[test]
fn a_mask_in_another_form_is_named() {
    let mut dump = dumped("--decrypt --offset 3", CIPHERTEXT);
    let shifted = (0..16).map(|i| mask(3)[(i + 12 * (i % 4)) % 16]).collect();
    recover(&mut dump, 2, &[shifted, mask(3)]);
    let told = compared("--decrypt --offset 3", CIPHERTEXT, &dump);
    let expected = "Covered by Mask(o) where InvShiftRows(Mask(o)) is due (o = 3: Mask(3), InvShiftRows(Mask(3))).";
    assert_eq!((told[2].as_str(), told[3].as_str()), (expected, "Under the masks nothing differs."));
}

/// A byte, or a whole state, that no mask explains.
#[test]
fn what_no_mask_explains_differs_under_it() {
    let mut dump = dumped("--offset 3", BLOCK);
    dump[16 * 4 + 7] ^= 0x80;
    let expected = [
        "1 of 1136 bytes differs, in 1 of 71 states: 1 under the masks, 0 by the masks alone.",
        "Where MixColumns(ShiftRows(Mask(o+1))) is due (o = 3: MixColumns(ShiftRows(Mask(4)))), no mask of another label covers \
         the whole state.",
        "Nor is byte 7 alone as one would cover it.",
        "Under the mask it differs: xor 80.",
    ];
    let told = compared("--offset 3", BLOCK, &dump);
    assert_eq!([&told[0], &told[2], &told[3], &told[4]], expected);
    recover(&mut dump, 4, &[vec![0x11; 16]]);
    assert!(compared("--offset 3", BLOCK, &dump)[0].ends_with(": 16 under the masks, 0 by the masks alone."));
}

/// One box of round 2 with the label three behind the right one. Its byte is still judged by the mask that is due.
#[test]
fn a_mask_that_would_cover_one_byte_is_named() {
    let mut dump = dumped("--offset 3", BLOCK);
    dump[16 * 12 + 5] ^= mask(6)[5] ^ mask(9)[5];
    let told = compared("--offset 3", BLOCK, &dump);
    assert_eq!(told[0], "1 of 1136 bytes differs, in 1 of 71 states: 1 under the masks, 0 by the masks alone.");
    assert!(told[1].starts_with("First difference: state 12, byte 5 (boxes 2, round 2): "), "{}", told[1]);
    let expected = [
        "Where Mask(o+3) is due (o = 3: Mask(6)), no mask of another label covers the whole state.",
        "Byte 5 alone is as Mask(o+6) would cover it.",
        "Under the mask it differs: xor 5c.",
    ];
    assert_eq!(told[2..], expected);

    // Of masks that repeat after eight, those with the labels o+6 and o+14 would.
    let twice = "0011223344556677".repeat(2);
    let options = format!("--offset 3 --masks {twice}");
    let mut dump = dumped(&options, BLOCK);
    dump[16 * 12 + 5] ^= 0x33 ^ 0x66;
    assert_eq!(compared(&options, BLOCK, &dump)[2..], [expected[0], expected[1], "Under the mask it differs: xor 55."]);

    // A byte of the ciphertext from which the last mask was not taken, which is mask 17 + 9 of sixteen.
    let mut dump = dumped("--offset 3", BLOCK);
    dump[16 * 70 + 5] ^= mask(17)[9];
    let left = [
        "Where no mask is due, no mask covers the whole state.",
        "Byte 5 alone is as ShiftRows(Mask(o+14)) would cover it.",
        "Under the mask it differs: xor a3.",
    ];
    assert_eq!(compared("--offset 3", BLOCK, &dump)[2..], left);
}

/// What is told of a dump with another key and another offset is what is told of two such runs side by side.
#[test]
fn a_dump_with_another_key_is_read_at_its_offset() {
    // One bit of round key 1, one byte of round key 0, and all of the key.
    let first_byte = format!("ff{}", &KEY[2..]);
    for key in [OTHER_KEY, &first_byte, NIST_KEY] {
        for (way, block) in [("", BLOCK), ("--decrypt", CIPHERTEXT)] {
            let dump = dumped_with(key, &format!("{way} --offset 7 --step 5"), block);
            let against = compared(&format!("{way} --offset 3 --step 5"), block, &dump);
            let beside = differing(&format!("record {way} --offset 3 --step 5 --offset2 7 --key2 {key} {KEY} {block}"));
            let beside: Vec<String> =
                told(&beside).iter().map(|said| said.replace(": first ", ": run ").replace(", second ", ", dump ")).collect();
            assert_eq!([&against[0], &against[1], &against[4]], [&beside[0], &beside[1], &beside[3]]);
            assert_eq!(against[2], "Covered by Mask(o+4) where Mask(o) is due (o = 3: Mask(7), Mask(3)).");
            let read = "Read at offset 7: what differs under the masks is what differs from the run at that offset.";
            assert_eq!(against[3], read);
        }
        let plain = compared("", BLOCK, &dumped_with(key, "--offset 7", BLOCK));
        let beside = differing(&format!("record --offset2 7 --key2 {key} {KEY} {BLOCK}"));
        assert_eq!((&plain[0][..], &plain[4][..]), (told(&beside)[0], told(&beside)[3]));
    }
    let dump = dumped_with(OTHER_KEY, "--offset 7", BLOCK);
    let last = "First difference under the masks: state 6, byte 15 (key 1, round 1): xor 01.";
    assert_eq!(compared("--offset 3", BLOCK, &dump)[4], last);
}

/// And behind a first state that alone is under another mask it is still read at the run's own offset.
#[test]
fn one_wrong_byte_is_one_byte_at_another_offset_too() {
    let mut other = dumped("--offset 7", BLOCK);
    other[16 * 17 + 4] ^= 0x21;
    let last = "First difference under the masks: state 17, byte 4 (boxes 3, round 3): xor 21.";
    let told = compared("--offset 3", BLOCK, &other);
    assert!(told[0].contains(": 1 under the masks, ") && told[3].starts_with("Read at offset 7: "), "{told:?}");
    assert_eq!(told[4], last);

    let mut first_alone = dumped("--offset 3", BLOCK);
    recover(&mut first_alone, 0, &[mask(3), mask(7)]);
    first_alone[16 * 17 + 4] ^= 0x21;
    let expected = [
        "17 of 1136 bytes differ, in 2 of 71 states: 1 under the masks, 16 by the masks alone.",
        "Covered by Mask(o+4) where Mask(o) is due (o = 3: Mask(7), Mask(3)).",
        last,
    ];
    let told = compared("--offset 3", BLOCK, &first_alone);
    assert_eq!([&told[0], &told[2], &told[3]], expected);
}

/// From the compensation of round 2 on all labels are one behind.
#[test]
fn a_slip_from_some_round_on_is_told() {
    let slipped = [&dumped("--offset 3", BLOCK)[..16 * 15], &dumped("--offset 4", BLOCK)[16 * 15..]].concat();
    let told = compared("--offset 3", BLOCK, &slipped);
    assert!(told[0].contains(", in 55 of 71 states: 0 under the masks, "), "{}", told[0]);
    let expected = ["Covered by Mask(o+4) where Mask(o+3) is due (o = 3: Mask(7), Mask(6)).", "Under the masks nothing differs."];
    assert_eq!(told[2..], expected);
}

#[test]
fn a_run_at_another_offset_is_told() {
    let other = dumped("--offset 7", BLOCK);
    let told = compared("--offset 3", BLOCK, &other);
    assert_eq!(told[2], "Covered by Mask(o+4) where Mask(o) is due (o = 3: Mask(7), Mask(3)).");
    assert_eq!(told[3], "All of its masks are those of offset 7.");
    let plain = compared("", BLOCK, &other);
    assert_eq!(plain[2..], ["Covered by Mask(7) where no mask is due.", &told[3], &told[4]]);
    // The second half is at offset 3 again.
    let half = [&other[..16 * 40], &dumped("--offset 3", BLOCK)[16 * 40..]].concat();
    assert_eq!(compared("--offset 3", BLOCK, &half)[3], "Under the masks nothing differs.");
}

#[test]
fn what_is_no_dump_is_refused() {
    let folder = Folder::new("no-dump");
    let states = dumped("--offset 3", BLOCK);
    let lines: Vec<String> = states.chunks(16).map(hex::digits).collect();
    let wrong = |at: usize, line: &str| [&lines[..at], &[line.to_string()][..], &lines[at + 1..]].concat().join("\n");
    let expected = "1136 bytes or 71 lines of hex digits are expected";
    let decryption = "; a decryption's dump is compared with --decrypt";
    let cases = [
        (vec![0; 1135], format!(": 1135 bytes, and {expected}")),
        (vec![0; 1360], format!(": 1360 bytes, and {expected}{decryption}")),
        (vec![0x61; 1 << 17], format!(": more than 65536 bytes, and {expected}")),
        (Vec::new(), format!(": 0 bytes, and {expected}")),
        (lines[1..].join("\n").into_bytes(), format!(": 70 states, and {expected}")),
        (format!("{BLOCK}\n").repeat(85).into_bytes(), format!(": 85 states, and {expected}{decryption}")),
        (wrong(6, &lines[6][1..]).into_bytes(), format!(", line 7: hex digits: 31, expected: 32; {expected}")),
        (wrong(6, "zz").into_bytes(), format!(", line 7: digit 1 is not a hex digit; {expected}")),
    ];
    for (bytes, message) in cases {
        let file = folder.file("dump", bytes);
        let refusal = refused(&format!("record --offset 3 --against {file} {KEY} {BLOCK}"));
        assert_eq!(refusal, (format!("{file}{message}"), 1));
    }
    let words = ["record", "--against", "-", KEY, BLOCK].map(OsString::from);
    let endless = run(&words, &mut BufReader::new(io::repeat(b'0')), &mut Vec::new(), &mut Vec::new()).unwrap_err();
    assert_eq!((endless.message, endless.status), (format!("standard input: more than 65536 bytes, and {expected}"), 1));
    let missing = folder.path("missing");
    let (message, status) = refused(&format!("record --against {missing} {KEY} {BLOCK}"));
    assert!(message.starts_with(&format!("{missing}: ")) && status == 1, "{message}");
}
