//! What is left of form 1: the blocks that early modules stored, and the option that is gone.

use super::{printed, refused, typed, BLOCK, CIPHERTEXT, KEY, PUBLISHED};
use crate::hex;

const ZEROS: &str = "00000000000000000000000000000000";

/// The ciphertext of C.3 as it was stored: byte i is under mask o + 14 + i.
fn stored(offset: usize) -> String {
    let (block, masks) = (hex::bytes(CIPHERTEXT).unwrap(), hex::bytes(PUBLISHED).unwrap());
    (0..16).map(|i| format!("{:02x}", block[i] ^ masks[(offset + 14 + i) % 16])).collect()
}

#[test]
fn a_stored_block_becomes_the_ciphertext_and_again_the_stored_one() {
    for offset in 0..16 {
        assert_eq!(printed(&format!("convert {} {offset}", stored(offset))).trim(), CIPHERTEXT);
        assert_eq!(printed(&format!("convert {CIPHERTEXT} {offset}")).trim(), stored(offset));
    }
}

/// Zeros at offset 2 were stored as Mask(16), the published masks from their first on.
#[test]
fn lines_are_converted_in_their_order() {
    let lines = format!("# an archive\n\n{} 3\n{PUBLISHED}\t2 # zeros\n  {} 15", stored(3), stored(15));
    assert_eq!(typed("convert", &lines), (format!("{CIPHERTEXT}\n{ZEROS}\n{CIPHERTEXT}\n"), None));
}

/// None of the lines is printed then, those before it neither.
#[test]
fn a_line_that_is_wrong_is_named() {
    let length = "a block is 16 bytes (reply 3, INPUT_LENGTH)";
    let range = "an offset is 0 to 15 (reply 6, OFFSET_RANGE)";
    let cases = [
        (format!("{BLOCK}00 1"), format!("stored block, line 3 of standard input: 17 bytes: {length}")),
        (format!("{BLOCK}00 16"), format!("stored block, line 3 of standard input: 17 bytes: {length}")),
        ("0g 1".to_string(), "stored block, line 3 of standard input: 'g' at digit 2 is not a hex digit".to_string()),
        (format!("{BLOCK} 16"), format!("offset, line 3 of standard input: 16: {range}")),
        (format!("{BLOCK} 256"), format!("offset, line 3 of standard input: 256: {range}")),
        (format!("{BLOCK} 0x1"), "offset, line 3 of standard input: 0x1: a decimal number from 0 to 15 is expected".to_string()),
        (BLOCK.to_string(), "line 3 of standard input: 1 word, and a stored block and its offset are expected".to_string()),
        (format!("{BLOCK} 1 2"), "line 3 of standard input: 3 words, and a stored block and its offset are expected".to_string()),
    ];
    for (line, message) in cases {
        let lines = format!("# an archive\n{BLOCK} 0\n{line}\n{BLOCK} 0\n");
        assert_eq!(typed("convert", &lines), (String::new(), Some((message, 1))));
    }
    let nothing = "standard input: no stored block in it, and one to a line is expected, with its offset";
    assert_eq!(typed("convert", "# an archive\n"), (String::new(), Some((nothing.to_string(), 1))));
}

#[test]
fn arguments_that_are_wrong_are_named() {
    let cases = [
        (format!("convert {} 0", &BLOCK[2..]), "stored block, argument 1: 15 bytes: a block is 16 bytes (reply 3, INPUT_LENGTH)"),
        (format!("convert {BLOCK} 16"), "offset, argument 2: 16: an offset is 0 to 15 (reply 6, OFFSET_RANGE)"),
        (
            format!("convert {BLOCK} 00000000000000016"),
            "offset, argument 2: 0000.. (17 digits): an offset is 0 to 15 (reply 6, OFFSET_RANGE)",
        ),
        (format!("convert {BLOCK} 0f"), "offset, argument 2: 0f: a decimal number from 0 to 15 is expected"),
        (
            format!("convert {BLOCK}"),
            "the offset is missing: it is expected as an argument or on standard input; slipgrease convert --help says more",
        ),
        (format!("convert {BLOCK} 0 1"), "argument 3 is one word too many; slipgrease convert --help says more"),
        (format!("convert --offset 0 {BLOCK}"), "no option --offset here; slipgrease convert --help says more"),
    ];
    for (line, message) in cases {
        assert_eq!(refused(&line), (message.to_string(), 1));
    }
}

#[test]
fn who_asks_for_a_form_is_told_what_became_of_it() {
    let message = "--form: form 1 has retired, and every block comes out in the standard form; slipgrease convert makes the \
                   standard block of one that was stored in form 1";
    for form in ["0", "1", "2"] {
        for line in [
            format!("mask --offset 1 --form {form} {KEY} {BLOCK}"),
            format!("mask {KEY} {BLOCK} --offset 1 --masks {BLOCK} --form {form}"),
            format!("blocks --offsets 0 --form {form} {KEY} {BLOCK}"),
        ] {
            assert_eq!(refused(&line), (message.to_string(), 1), "{line}");
        }
    }
}
