//! The record of a decryption. Its plain states are those of FIPS 197, C.3, from the last round to the first; from label 5 on the
//! published masks are 5c 65 6a 95 9a a3 ac c6 c9 f0 ff 00 0f 36 39 53.

use super::record::differing;
use super::{printed, BLOCK, CIPHERTEXT, KEY, PUBLISHED};

/// Number, name, state and what else a row has.
fn rows(said: &str) -> Vec<Vec<&str>> {
    said.lines().map(|line| line.split("  ").map(str::trim).filter(|cell| !cell.is_empty()).collect()).collect()
}

#[test]
fn a_masked_decryption_has_each_state_with_its_mask() {
    let said = printed(&format!("record --decrypt --offset 0 --step 5 {KEY} {CIPHERTEXT}"));
    assert!(said.starts_with(&format!("decryption, offset 0, step 5, the published masks, block {CIPHERTEXT}\n")));
    let rows = &rows(&said)[2..];
    assert_eq!(rows.len(), 85);
    let after_round_0 = "5c656a959aa3acc6c9f0ff000f363953";
    let expected = [
        (0, "block", CIPHERTEXT, PUBLISHED, "Mask(0)"),
        (1, "key 14", "aa5ece06ee6e3c56dde68bac2621bebf", PUBLISHED, "Mask(0)"),
        // Byte i of InvShiftRows(Mask(0)) is mask i + 12 * (i % 4).
        (2, "InvShiftRows 0", "aa218b56ee5ebeacdd6ecebf26e63c06", "00c9a36a530ff0ac955c36ffc69a6539", "InvShiftRows(Mask(0))"),
        (3, "correction 0", "aa218b56ee5ebeacdd6ecebf26e63c06", PUBLISHED, "Mask(0)"),
        (4, "inverse boxes 0", "627bceb9999d5aaac945ecf423f56da5", after_round_0, "Mask(5)"),
        (5, "key 13", "2c21a820306f154ab712c75eee0da04f", after_round_0, "Mask(5)"),
        (7, "restoration 0", "d1ed44fd1a0f3f2afa4ff27b7c332a69", after_round_0, "Mask(5)"),
        // 13 * 5 is 65, and 14 * 5 is 70.
        (81, "correction 13", "63cab7040953d051cd60e0e7ba70e18c", "0f3639535c656a959aa3acc6c9f0ff00", "Mask(1)"),
        (83, "key 0", BLOCK, "656a959aa3acc6c9f0ff000f3639535c", "Mask(6)"),
        (84, "plaintext", BLOCK, "00000000000000000000000000000000", "none"),
    ];
    for (n, name, plain, mask, mask_name) in expected {
        let number = n.to_string();
        assert_eq!([rows[n][0], rows[n][1], rows[n][2], rows[n][3], rows[n][5]], [&number, name, plain, mask, mask_name]);
    }
    assert_eq!((rows[6][1], rows[6][2], rows[6][5]), ("InvMixColumns 0", rows[7][2], "InvMixColumns(Mask(5))"));
    // The first byte: 8e xor 00, and the second: a2 xor 0f.
    assert!(rows[0][4].starts_with("8ead"));
}

/// It stands still where the masked one corrects, restores and uncovers.
#[test]
fn without_an_offset_the_decryption_is_plain() {
    let said = printed(&format!("record --decrypt {KEY} {CIPHERTEXT}"));
    let rows = rows(&said);
    assert_eq!((rows.len(), &rows[0][..]), (86, &["n", "after", "state"][..]));
    assert_eq!(rows[1], ["0", "block", CIPHERTEXT]);
    assert_eq!(rows[3], ["2", "InvShiftRows 0", "aa218b56ee5ebeacdd6ecebf26e63c06"]);
    assert_eq!(rows[4], ["3", "correction 0", "aa218b56ee5ebeacdd6ecebf26e63c06"]);
    assert_eq!(rows[78], ["77", "key 1", "5f72641557f5bc92f7be3b291db9f91a"]);
    assert_eq!(rows[85], ["84", "plaintext", BLOCK]);
}

/// Mask(0) and Mask(1) differ in every byte, and at the end there is no mask.
#[test]
fn two_decryptions_stand_side_by_side() {
    let said = differing(&format!("record --offset 0 --offset2 1 {KEY} {CIPHERTEXT} --decrypt"));
    let lines: Vec<&str> = said.lines().collect();
    assert_eq!(lines.len(), 3 + 1 + 85 + 1 + 4);
    assert!(lines[0].starts_with("first:  decryption, offset 0, ") && lines[1].starts_with("second: decryption, offset 1, "));
    assert!(lines[4].ends_with(&format!("{}      0     16  Mask(0) / Mask(1)", "-".repeat(32))), "{}", lines[4]);
    assert!(lines[88].ends_with(&format!("{BLOCK}  {BLOCK}  {}      0      0  none", ".".repeat(32))), "{}", lines[88]);
}
