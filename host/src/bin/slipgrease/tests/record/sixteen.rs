//! Records of runs that have an offset for each byte, and what their masks are called.

use super::super::offsets::{in_full, SIXTEEN};
use super::super::{printed, refused, typed, BLOCK, CIPHERTEXT, KEY, PUBLISHED};
use super::against::{compared, dumped, dumped_with, recover};
use super::{column, differing, told, OTHER_KEY};
use crate::hex;

/// Mask(o+on) of the sixteen offsets: byte i has the mask whose label is its offset and so many more.
fn mask(on: usize) -> Vec<u8> {
    let masks = hex::bytes(PUBLISHED).unwrap();
    SIXTEEN.split(',').map(|offset| masks[(offset.parse::<usize>().unwrap() + on) % 16]).collect()
}

fn shifted(mask: &[u8]) -> Vec<u8> {
    (0..16).map(|i| mask[(i + 4 * (i % 4)) % 16]).collect()
}

/// What is drawn, whatever the status.
fn drawn(options: &str) -> String {
    typed(&format!("record --svg - {options} {KEY} {BLOCK}"), "").0
}

#[test]
fn one_offset_is_short_for_sixteen() {
    for offset in 0..16 {
        let sixteen = in_full(offset);
        for (way, block) in [("", BLOCK), ("--decrypt", CIPHERTEXT), ("--json", BLOCK)] {
            let [one, all] = [offset.to_string(), sixteen.clone()]
                .map(|offsets| printed(&format!("record {way} --step 5 --offset {offsets} {KEY} {block}")));
            assert_eq!(one, all);
        }
        assert_eq!(drawn(&format!("--offset {offset}")), drawn(&format!("--offset {sixteen}")));
        let same = printed(&format!("record --offset {offset} --offset2 {sixteen} {KEY} {BLOCK}"));
        assert!(same.contains("\nBoth are given the same.\n"), "{same}");
    }
}

/// The step is 5: behind round 0 the labels are 5 on, behind round 12 they are 65 on, and behind round 13 they are 70 on.
#[test]
fn a_mask_is_named_by_how_far_it_is_on() {
    let said = printed(&format!("record --offset {SIXTEEN} --step 5 {KEY} {BLOCK}"));
    let head = format!("offsets o = {SIXTEEN}, step 5, the published masks, block {BLOCK}");
    assert_eq!(said.lines().next(), Some(&head[..]));
    let (plain, masks, covered) = (column(&said, 0), column(&said, 1), column(&said, 2));
    let names: Vec<&str> = said.lines().skip(2).map(|line| line.rsplit_once(' ').unwrap().1).collect();
    let expected = [
        (0, "Mask(o)", mask(0)),
        (1, "Mask(o)", mask(0)),
        (2, "Mask(o+5)", mask(5)),
        (3, "ShiftRows(Mask(o+5))", shifted(&mask(5))),
        (5, "Mask(o+5)", mask(5)),
        (66, "Mask(o+1)", mask(65)),
        (67, "Mask(o+6)", mask(70)),
        (69, "ShiftRows(Mask(o+6))", shifted(&mask(70))),
        (70, "none", vec![0; 16]),
    ];
    for (n, name, mask) in expected {
        assert_eq!((names[n], &masks[16 * n..][..16]), (name, &mask[..]), "{n}");
        let under: Vec<u8> = (16 * n..16 * n + 16).map(|i| plain[i] ^ covered[i]).collect();
        assert_eq!(under, mask, "{n}");
    }
    assert_eq!((names[4], plain[16 * 70..].to_vec()), ("MixColumns(ShiftRows(Mask(o+5)))", hex::bytes(CIPHERTEXT).unwrap()));

    let back = printed(&format!("record --decrypt --offset {SIXTEEN} --step 5 {KEY} {CIPHERTEXT}"));
    assert!(back.starts_with(&format!("decryption, offsets o = {SIXTEEN}, step 5, ")), "{back}");
    let names: Vec<&str> = back.lines().skip(2).map(|line| line.rsplit_once(' ').unwrap().1).collect();
    assert_eq!(
        names[1..=6],
        ["Mask(o)", "InvShiftRows(Mask(o))", "Mask(o)", "Mask(o+5)", "Mask(o+5)", "InvMixColumns(Mask(o+5))"]
    );
    assert_eq!(column(&back, 1)[16 * 83..], [mask(70), vec![0; 16]].concat());
}

/// o are the first run's, and o2 those of the second where they are others.
#[test]
fn two_runs_have_names_for_their_offsets() {
    let other = vec!["1"; 16].join(",");
    let said = differing(&format!("record --offset {SIXTEEN} --offset2 {other} {KEY} {BLOCK}"));
    let rows: Vec<&str> = said.lines().collect();
    assert!(rows[0].starts_with(&format!("first:  offsets o = {SIXTEEN}, step 1, ")), "{}", rows[0]);
    assert!(rows[1].starts_with(&format!("second: offsets o2 = {other}, step 1, ")), "{}", rows[1]);
    assert_eq!(rows[2], "The second has other offsets.");
    assert!(rows[4].ends_with("  Mask(o) / Mask(o2)") && rows[6].ends_with("  Mask(o+1) / Mask(o2+1)"), "{}", rows[6]);
    assert!(rows[73].ends_with("  ShiftRows(Mask(o+14)) / ShiftRows(Mask(o2+14))"), "{}", rows[73]);
    assert_eq!(
        told(&said)[2..],
        ["The first is under Mask(o) there, the second under Mask(o2).", "Under the masks nothing differs."]
    );

    let cases = [
        (format!("--offset {SIXTEEN} --offset2 7"), "The second has other offsets.", "Mask(o) / Mask(7)"),
        (format!("--offset 7 --offset2 {SIXTEEN}"), "The second has other offsets.", "Mask(7) / Mask(o2)"),
        (format!("--offset2 {SIXTEEN}"), "The second has offsets.", "none / Mask(o2)"),
        (format!("--offset {SIXTEEN} --offset2 {SIXTEEN} --key2 {OTHER_KEY}"), "The second has another key.", "Mask(o)"),
        (format!("--offset {SIXTEEN} --key2 {OTHER_KEY}"), "The second has another key.", "Mask(o)"),
        (format!("--offset {SIXTEEN} --step2 5"), "The second has another step.", "Mask(o)"),
    ];
    for (options, another, names) in cases {
        let said = differing(&format!("record {options} {KEY} {BLOCK}"));
        assert_eq!(said.lines().nth(2), Some(another));
        assert!(said.lines().nth(4).unwrap().ends_with(&format!("  {names}")), "{options}");
    }
}

/// The numbers stand in a line of their own, and over a panel there is room for their name alone.
#[test]
fn a_picture_has_the_names_of_the_offsets() {
    let svg = drawn(&format!("--offset {SIXTEEN} --offset2 7"));
    assert!(svg.contains(&format!(">first: offsets o = {SIXTEEN}, step 1, the published masks, block {BLOCK}</text>")));
    let captions = svg.lines().filter(|line| line.starts_with("<text class=\"caption\""));
    let captions: Vec<&str> = captions.map(|line| line.split(['>', '<']).nth(2).unwrap()).collect();
    assert_eq!(captions[..2], ["first, offsets o, step 1", "second, offset 7, step 1"]);
    assert!(svg.contains(">Mask(o) / Mask(7)</text>"));
    assert!(drawn(&format!("--offset {SIXTEEN}")).contains(">ShiftRows(Mask(o+14))</text>"));
}

#[test]
fn a_dump_at_sixteen_offsets_is_searched_for_other_labels() {
    let options = format!("--offset {SIXTEEN}");
    let dump = dumped(&options, BLOCK);
    let with = |state: usize, masks: &[Vec<u8>]| {
        let mut dump = dump.clone();
        recover(&mut dump, state, masks);
        compared(&options, BLOCK, &dump)
    };
    // The compensation of round 2 with the label behind the right one, no mask over state 1, and the last mask not taken off.
    assert_eq!(with(15, &[mask(3), mask(4)])[2], "Covered by Mask(o+4) where Mask(o+3) is due.");
    assert_eq!(with(1, &[mask(0)])[2], "Not covered where Mask(o) is due.");
    assert_eq!(with(70, &[mask(14)])[2], "Covered by Mask(o+14) where no mask is due.");

    // One byte under the mask three labels on.
    let mut one_byte = dump.clone();
    one_byte[16 * 12 + 5] ^= mask(3)[5] ^ mask(6)[5];
    let expected = [
        "Where Mask(o+3) is due, no mask of another label covers the whole state.",
        "Byte 5 alone is as Mask(o+6) would cover it.",
    ];
    assert_eq!(compared(&options, BLOCK, &one_byte)[2..4], expected);

    // One byte at another offset from the beginning on, which no label of the others explains.
    let slipped = dumped(&format!("--offset {}", SIXTEEN.replacen("3,9", "3,8", 1)), BLOCK);
    let told = compared(&options, BLOCK, &slipped);
    assert!(told[1].starts_with("First difference: state 0, byte 1 (block, round 0): "), "{}", told[1]);
    assert_eq!(
        told[2..4],
        [
            "Where Mask(o) is due, no mask of another label covers the whole state.",
            "Byte 1 alone is as Mask(o+15) would cover it."
        ]
    );
}

/// As far on as a module that counts one block too many would be.
#[test]
fn a_dump_is_read_as_far_on_as_it_is() {
    let on: Vec<String> = SIXTEEN.split(',').map(|offset| ((offset.parse::<usize>().unwrap() + 4) % 16).to_string()).collect();
    let (here, there) = (format!("--offset {SIXTEEN} --step 5"), format!("--offset {} --step 5", on.join(",")));
    let told = compared(&here, BLOCK, &dumped(&there, BLOCK));
    assert_eq!(
        told[2..],
        [
            "Covered by Mask(o+4) where Mask(o) is due.",
            "All of its masks are those of offsets o+4.",
            "Under the masks nothing differs."
        ]
    );
    let told = compared(&here, BLOCK, &dumped_with(OTHER_KEY, &there, BLOCK));
    let beside = differing(&format!("record {here} --offset2 {} --key2 {OTHER_KEY} {KEY} {BLOCK}", on.join(",")));
    let beside: Vec<&str> = super::told(&beside);
    assert_eq!(told[3], "Read at offsets o+4: what differs under the masks is what differs from the run at those offsets.");
    assert_eq!((&told[0][..], &told[4][..]), (beside[0], beside[3]));
}

#[test]
fn the_help_says_what_sixteen_offsets_are_called() {
    let said = printed("record --help");
    assert!(["Mask(o+4)", "called o2", "the list \"offsets\""].iter().all(|part| said.contains(part)), "{said}");
    assert!(printed("mask --help").contains(&format!("3 is short for {}", in_full(3))));
    let plain = refused(&format!("record --step 5 --offset2 {SIXTEEN} {KEY} {BLOCK}"));
    assert_eq!(plain.0, "a step is given and --offset is missing: a run without an offset is plain");
}
