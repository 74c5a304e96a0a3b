//! Two runs side by side, and what else is said of records.

mod against;
mod files;
mod json;
mod picture;
mod sixteen;

use super::{printed, refused, typed, BLOCK, CIPHERTEXT, KEY, PUBLISHED};
use crate::hex;

/// KEY with its last bit changed, which is the last of round key 1.
const OTHER_KEY: &str = "000102030405060708090a0b0c0d0e0f101112131415161718191a1b1c1d1e1e";

/// What a command prints that is done, and whose answer is no.
pub fn differing(line: &str) -> String {
    let (out, failed) = typed(line, "");
    assert_eq!(failed, Some((String::new(), 3)), "{line}");
    out
}

/// The last lines.
fn told(said: &str) -> Vec<&str> {
    said.split_once("\n\n").expect("a line is left free before them").1.lines().collect()
}

/// A column of a masked record: 0 for the plain states, 1 for the masks, 2 for the covered states.
fn column(said: &str, column: usize) -> Vec<u8> {
    let states = |line: &str| line.split_whitespace().filter(|word| word.len() == 32).map(str::to_string).collect::<Vec<_>>();
    said.lines().skip(2).flat_map(|line| hex::bytes(&states(line)[column]).unwrap()).collect()
}

#[test]
fn two_offsets_differ_by_their_masks_alone() {
    let said = differing(&format!("record --offset 0 --offset2 1 {KEY} {BLOCK}"));
    let rows: Vec<&str> = said.lines().collect();
    assert_eq!(rows.len(), 3 + 1 + 71 + 1 + 4);
    assert_eq!(rows[0], format!("first:  offset 0, step 1, the published masks, block {BLOCK}"));
    assert_eq!(rows[1], format!("second: offset 1, step 1, the published masks, block {BLOCK}"));
    assert_eq!(rows[2], "The second has another offset.");
    // The first masks are 00, 0f, 36 .. and 0f, 36, 39 ..
    assert!(rows[4].contains("  001e140a1709031d1d0309170a141e00  0f271b"), "{}", rows[4]);
    assert!(rows[4].ends_with(&format!("{}      0     16  Mask(0) / Mask(1)", "-".repeat(32))), "{}", rows[4]);
    assert!(rows[73].ends_with("  ShiftRows(Mask(14)) / ShiftRows(Mask(15))"), "{}", rows[73]);
    let end = format!("{CIPHERTEXT}  {CIPHERTEXT}  {}      0      0  none", ".".repeat(32));
    assert!(rows[74].ends_with(&end), "{}", rows[74]);
    let told = told(&said);
    assert!(told[0].contains(", in 70 of 71 states: 0 under the masks, "), "{}", told[0]);
    assert_eq!(told[1], "First difference: state 0, byte 0 (block, round 0): first 00, second 0f.");
    assert_eq!(told[2], "The first is under Mask(0) there, the second under Mask(1).");
    assert_eq!(told[3], "Under the masks nothing differs.");
}

/// Masks that are all the same byte go through ShiftRows and MixColumns as they are, so that every covered byte differs.
#[test]
fn other_masks_are_named_and_counted() {
    let (fives, sixes) = ("05".repeat(16), "06".repeat(16));
    let said = differing(&format!("record --offset 3 --masks {fives} --masks2 {sixes} {KEY} {BLOCK}"));
    let rows: Vec<&str> = said.lines().collect();
    assert!(rows[0].contains(&format!(", masks {fives}, ")) && rows[1].contains(&format!(", masks {sixes}, ")));
    assert_eq!(rows[2], "The second has other masks.");
    let expected = [
        "1120 of 1136 bytes differ, in 70 of 71 states: 0 under the masks, 1120 by the masks alone.",
        "First difference: state 0, byte 0 (block, round 0): first 05, second 06.",
        "Both are under Mask(3) there, whose byte is 05 in the first and 06 in the second.",
        "Under the masks nothing differs.",
    ];
    assert_eq!(told(&said), expected);
}

/// Round key 1 is added to state 5.
#[test]
fn a_changed_key_bit_differs_under_the_masks() {
    let said = differing(&format!("record --offset 3 --key2 {OTHER_KEY} {KEY} {BLOCK}"));
    assert_eq!(said.lines().nth(2), Some("The second has another key."));
    let [plain, other] = [KEY, OTHER_KEY].map(|key| column(&printed(&format!("record --offset 3 {key} {BLOCK}")), 0));
    let differ = plain.iter().zip(&other).filter(|(x, y)| x != y).count();
    assert!(differ > 800, "{differ}");
    // State 6 begins in C.3 with 4f and ends with 05, under mask 4 + 15 of the published: 39.
    let expected = [
        format!("{differ} of 1136 bytes differ, in 65 of 71 states: {differ} under the masks, 0 by the masks alone."),
        "First difference: state 6, byte 15 (key 1, round 1): first 3c, second 3d.".to_string(),
        "Both are under Mask(4) there.".to_string(),
        "Under the mask it differs: xor 01.".to_string(),
    ];
    assert_eq!(told(&said), expected);
    let row = said.lines().nth(4 + 6).unwrap();
    assert!(row.ends_with(&format!("{}01      1      0  Mask(4)", ".".repeat(30))), "{row}");
}

/// The block is changed by just what the masks differ in, so that the first two states are recorded alike.
#[test]
fn what_the_masks_hide_is_told() {
    let (fives, sixes) = ("05".repeat(16), "06".repeat(16));
    let block2: String = hex::bytes(BLOCK).unwrap().iter().map(|byte| format!("{:02x}", byte ^ 3)).collect();
    let said = differing(&format!("record --offset 0 --masks {fives} --masks2 {sixes} --block2 {block2} {KEY} {BLOCK}"));
    assert_eq!(said.lines().nth(2), Some("The second has another block and other masks."));
    for row in [4, 5] {
        let row = said.lines().nth(row).unwrap();
        assert!(row.ends_with(&format!("{}     16      0  Mask(0)", "03".repeat(16))), "{row}");
    }
    let runs = [(fives, BLOCK), (sixes, &block2)]
        .map(|(masks, block)| printed(&format!("record --offset 0 --masks {masks} {KEY} {block}")))
        .map(|said| (column(&said, 0), column(&said, 2)));
    let [(plain, first), (other, second)] = &runs;
    let count = |of: &dyn Fn(usize) -> bool| (0..1136).filter(|&byte| of(byte)).count();
    let (under, recorded) = (|byte: usize| plain[byte] != other[byte], |byte: usize| first[byte] != second[byte]);
    let (seen, alone) = (count(&|byte| under(byte) && recorded(byte)), count(&|byte| !under(byte) && recorded(byte)));
    let hidden = count(&|byte| under(byte) && !recorded(byte));
    assert!(hidden >= 32 && alone > 0, "{hidden} {alone}");
    let counts =
        format!("{} of 1136 bytes differ, in 69 of 71 states: {seen} under the masks, {alone} by the masks alone", seen + alone);
    let told = told(&said);
    assert_eq!(told[0], format!("{counts}; {hidden} more differ under the masks and are recorded alike."));
    assert!(told[1].starts_with("First difference: state 2, byte 0 (boxes 0, round 0): "), "{}", told[1]);
    assert_eq!(told[3], "First difference under the masks: state 0, byte 0 (block, round 0): xor 03.");
}

#[test]
fn runs_that_are_the_same_end_with_0() {
    let said = printed(&format!("record {KEY} {BLOCK} --block2 {BLOCK}"));
    assert_eq!(said.matches(&".".repeat(32)).count(), 71);
    assert_eq!(said.lines().nth(2), Some("Both are given the same."));
    assert_eq!(told(&said), ["None of 1136 bytes differs."]);
}

/// Nothing is said of masks where there are none.
#[test]
fn plain_runs_are_compared_without_masks() {
    let said = differing(&format!("record --key2 {OTHER_KEY} {KEY} {BLOCK}"));
    assert_eq!(said.to_lowercase().matches("mask").count(), 0);
    assert!(said.lines().nth(4 + 6).unwrap().ends_with(&format!("{}01      1", ".".repeat(30))));
    assert_eq!(told(&said).len(), 2);
    assert_eq!(told(&said)[1], "First difference: state 6, byte 15 (key 1, round 1): first 05, second 04.");
    let covered = differing(&format!("record --offset2 0 {KEY} {BLOCK}"));
    assert_eq!(covered.lines().nth(2), Some("The second has an offset."));
    // The first mask is 00, and covers nothing.
    assert_eq!(told(&covered)[1], "First difference: state 0, byte 1 (block, round 0): first 11, second 1e.");
    assert_eq!(told(&covered)[2], "The first is under no mask there, the second under Mask(0).");
}

/// As the help says: of covered states, in either direction.
#[test]
fn a_record_gives_the_key_away() {
    let said = printed("record --help");
    assert!(said.contains("A record gives the key away") && said.contains("Keep a record as you keep the key."));
    let schedule = printed(&format!("expand {KEY}"));
    let keys: Vec<&str> = schedule.lines().collect();
    assert_eq!(keys[..2].concat(), KEY);
    for (way, block, states) in [("", BLOCK, [(0, 0), (5, 1)]), (" --decrypt", CIPHERTEXT, [(0, 14), (4, 13)])] {
        let covered = column(&printed(&format!("record --offset 9{way} {KEY} {block}")), 2);
        for (state, key) in states {
            let added = (16 * state..16 * state + 16).map(|i| format!("{:02x}", covered[i] ^ covered[i + 16]));
            assert_eq!(added.collect::<String>(), keys[key]);
        }
    }
}

#[test]
fn a_run_has_one_other_beside_it() {
    let cases = [
        (
            "--against no-file --key2",
            "--against and --key2 cannot be given together: a run is put beside a dump or beside a second run",
        ),
        ("--json --svg - --key2", "--json and --svg - cannot be given together: standard output takes one of them"),
    ];
    for (options, message) in cases {
        assert_eq!(refused(&format!("record {options} {KEY} {KEY} {BLOCK}")), (message.to_string(), 1));
    }
    assert_eq!(
        column(&printed(&format!("record --offset 0 --masks {PUBLISHED} {KEY} {BLOCK}")), 1)[..16],
        hex::bytes(PUBLISHED).unwrap()
    );
}
