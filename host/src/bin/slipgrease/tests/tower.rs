//! A covered byte in the tower. The values were worked out by a program in another language, from the formulas of document 000, with x as {5e}.

use super::{printed, refused};

#[test]
fn each_value_is_shown_under_its_mask() {
    let expected = "\
after                        plain  mask  covered  mask's name
the byte                     53     1f    4c       r
the change of basis          55     1e    4b       t(r), r in the tower
(4.7), the norm              f      1     e        the higher half of t(r)
(4.8), its inverse           8      1     9        the higher half of t(r)
the exchange of its mask     8      e     6        the lower half of t(r)
(4.9), the higher half       e      1     f        the higher half of t(r)
(4.10), the lower half       0      e     e        the lower half of t(r)
the change back: the answer  ca     1f    d5       r
";
    assert_eq!(printed("tower 4c 1f"), expected);
}

/// The byte 00, whose inverse is 00, under any mask; and the mask 00, which leaves all bare.
#[test]
fn zero_is_no_special_case() {
    for mask in ["00", "01", "9a", "ff"] {
        let shown = printed(&format!("tower {mask} {mask}"));
        assert_eq!(shown.lines().last(), Some(&*format!("the change back: the answer  00     {mask}    {mask}       r")));
    }
    let shown = printed("tower 53 00");
    assert_eq!(shown.lines().last(), Some("the change back: the answer  ca     00    ca       r"));
}

/// What is worked out at the desk on the way leads to what the library answers: both halves are those of the answer in the tower.
#[test]
fn the_way_leads_to_the_answer() {
    for covered in 0..=255 {
        for mask in [0x00, 0x1f, 0xa3] {
            let shown = printed(&format!("tower {covered:02x} {mask:02x}"));
            let plain = |row: usize| shown.lines().nth(row).unwrap()[29..].split(' ').next().unwrap().to_string();
            let again = printed(&format!("tower {} 00", plain(8)));
            let in_tower = again.lines().nth(2).unwrap()[29..31].to_string();
            assert_eq!(plain(6) + &plain(7), in_tower);
        }
    }
}

#[test]
fn one_byte_and_one_mask_are_expected() {
    let cases = [
        ("tower 4c1f 00", "covered byte, argument 1: 2 bytes, and one is expected"),
        ("tower 4c 1f1f1f", "mask, argument 2: 3 bytes, and one is expected"),
        ("tower 4g 1f", "covered byte, argument 1: 'g' at digit 2 is not a hex digit"),
        (
            "tower 4c",
            "the mask is missing: it is expected as an argument or on standard input; slipgrease tower --help says more",
        ),
    ];
    for (words, message) in cases {
        assert_eq!(refused(words), (message.to_string(), 1));
    }
}
