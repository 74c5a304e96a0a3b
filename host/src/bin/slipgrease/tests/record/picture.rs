//! Pictures of records: what they show, in which colours, and who may read them.

use super::super::drawn::{attribute, cells, contrast, ink, linear};
use super::super::{printed, run, Folder, BLOCK, CIPHERTEXT, KEY, PUBLISHED};
use super::{differing, OTHER_KEY};
use std::collections::BTreeMap;
use std::ffi::OsString;
use std::fs::{self, Permissions};
use std::os::unix::ffi::OsStringExt;
use std::os::unix::fs::PermissionsExt;

/// What is drawn with --svg -, whatever the status.
fn drawn(options: &str, block: &str) -> String {
    let words = format!("record --svg - {options} {KEY} {block}");
    let words: Vec<OsString> = words.split_whitespace().map(OsString::from).collect();
    let mut out = Vec::new();
    let status = run(&words, &mut &[][..], &mut out, &mut Vec::new()).err().map_or(0, |fault| fault.status);
    assert!(status == 0 || status == 3, "{options}");
    String::from_utf8(out).unwrap()
}

/// How far two colours are apart for an eye, in CIE's L*a*b* of 1976; two that can just be told apart are 2.3 from one another.
fn distance(a: &str, b: &str) -> f64 {
    let lab = |colour: &str| {
        let [red, green, blue] = linear(colour);
        let root = |t: f64| if t > 0.008856 { t.cbrt() } else { 7.787 * t + 16.0 / 116.0 };
        let x = root((0.4124 * red + 0.3576 * green + 0.1805 * blue) / 0.9505);
        let y = root(0.2126 * red + 0.7152 * green + 0.0722 * blue);
        let z = root((0.0193 * red + 0.1192 * green + 0.9505 * blue) / 1.089);
        [116.0 * y - 16.0, 500.0 * (x - y), 200.0 * (y - z)]
    };
    lab(a).iter().zip(lab(b)).map(|(x, y)| (x - y) * (x - y)).sum::<f64>().sqrt()
}

const OTHER_MASKS: &str = "000f3639535c656a959aa3acc6c9f0fe";

/// One run, two offsets, a changed key bit, a changed mask.
fn four() -> [String; 4] {
    ["".to_string(), "--offset2 7".to_string(), format!("--key2 {OTHER_KEY}"), format!("--masks2 {OTHER_MASKS}")]
        .map(|more| drawn(&format!("--offset 3 {more}"), BLOCK))
}

#[test]
fn every_cell_is_read_with_a_contrast_of_4_5() {
    let mut seen = BTreeMap::new();
    for svg in four() {
        let hatch = attribute(svg.split_once("id=\"hatch\"").unwrap().1, "stroke").unwrap();
        for (written, class, ground) in cells(&svg) {
            let grounds = if ground == "url(#hatch)" { ["#ffffff", hatch] } else { [ground; 2] };
            for ground in grounds {
                let contrast = contrast(ink(&svg, class), ground);
                assert!(contrast >= 4.5, "{written} on {ground}: {contrast}");
            }
            seen.insert(written.to_string(), class.to_string());
        }
        for class in ["title", "line", "caption", "round", "stage", "place", "number", "name"] {
            assert!(contrast(ink(&svg, class), "#ffffff") >= 4.5, "{class}");
        }
    }
    // All 256 bytes were there, and the sixteen samples.
    assert_eq!(seen.len(), 256 + 16);
}

/// 0_ and f_ far more than neighbours among the others; and all bytes by their first digits.
#[test]
fn first_digits_are_told_apart() {
    let svg = drawn("--offset 3", BLOCK);
    let colours: BTreeMap<u8, &str> =
        cells(&svg).into_iter().filter_map(|(byte, _, fill)| Some((u8::from_str_radix(byte, 16).ok()?, fill))).collect();
    assert_eq!(colours.len(), 256);
    for second in 0..16 {
        for (a, b) in (0..16).flat_map(|a| (0..a).map(move |b| (16 * a + second, 16 * b + second))) {
            let distance = distance(colours[&a], colours[&b]);
            assert!(distance > 7.0, "{a:02x} and {b:02x}: {distance}");
        }
    }
    for (a, b) in [(0x00, 0x0f), (0x00, 0xf0), (0x00, 0xff), (0x0f, 0xf0), (0x0f, 0xff), (0xf0, 0xff)] {
        let distance = distance(colours[&a], colours[&b]);
        assert!(distance > 20.0, "{a:02x} and {b:02x}: {distance}");
    }
}

#[test]
fn a_picture_has_a_cell_for_every_byte() {
    for (way, block, made, states) in [("", BLOCK, CIPHERTEXT, 71), (" --decrypt", CIPHERTEXT, BLOCK, 85)] {
        for (more, panels) in [("", 1), (" --offset 3", 3), (" --offset 3 --offset2 3", 2)] {
            let svg = drawn(&format!("{way}{more}"), block);
            let samples = 16;
            assert_eq!(cells(&svg).len(), panels * 16 * states + samples);
            assert_eq!(svg.matches("byte pale").count(), if panels == 2 { panels * 16 * states } else { 0 });
            assert_eq!(svg.matches("<text class=\"round\"").count(), 14);
            // Round r of an encryption has key r, and of a decryption key 13 - r.
            let keys = [">key</text>", ">key 14</text>", ">key 0</text>"].map(|key| svg.matches(key).count());
            assert_eq!(keys, if way.is_empty() { [14, 1, 0] } else { [0, 1, 1] });
            let numbers = svg.lines().filter(|line| line.starts_with("<text class=\"number\""));
            assert!(numbers.zip(0..).all(|(line, n)| line.ends_with(&format!(">{n}</text>"))));
            assert_eq!(svg.matches("<text class=\"number\"").count(), states);
            assert_eq!(svg.matches(&format!("text {made}</text>")).count(), usize::from(panels != 2));
            assert_eq!(svg.matches(">plain xor mask = covered, byte by byte</text>").count(), usize::from(panels == 3));
            assert!(svg.starts_with("<svg ") && svg.ends_with("</svg>\n"));
            let title = svg.lines().nth(1).and_then(|line| line.strip_prefix("<title>")).unwrap();
            assert!(title.contains(block) && title.ends_with("</title>") && svg.matches("<title>").count() == 1, "{title}");
        }
    }
}

#[test]
fn a_title_is_made_of_sentences() {
    let title = |svg: &str| svg.lines().nth(1).unwrap().replace("<title>", "").replace("</title>", "");
    let alone = format!(
        "A run of AES-256. Offset 3, step 1, the published masks, block {BLOCK}. Ciphertext {CIPHERTEXT}. Plain xor mask = \
         covered, byte by byte."
    );
    assert_eq!(title(&drawn("--offset 3", BLOCK)), alone);
    let two = title(&drawn(&format!("--offset 3 --offset2 7 --key2 {OTHER_KEY}"), BLOCK));
    let beginning = format!(
        "Two runs of AES-256 side by side. First: offset 3, step 1, the published masks, block {BLOCK}. Second: offset 7, step 1, \
         the published masks, block {BLOCK}. The second has another key and another offset. "
    );
    assert!(two.starts_with(&beginning) && two.contains(" by the masks alone; ") && two.ends_with("): xor 01."), "{two}");
    assert!(!two.contains("  ") && !two.contains(".;") && !two.contains(".."), "{two}");
}

/// In colour is what differs under the masks, and what differs by these alone is hatched.
#[test]
fn two_offsets_are_no_carpet_of_colour() {
    let [_, offsets, key_bit, masks] = four();
    let counts = |svg: &str| {
        let cells = cells(svg);
        let hatched = cells.iter().filter(|cell| cell.2 == "url(#hatch)").count();
        let pale = cells.iter().filter(|cell| cell.1 == "byte pale").count();
        [cells.len() - hatched - pale - 16, hatched, pale]
    };
    // The last state of both runs is under no mask.
    let [coloured, hatched, pale] = counts(&offsets);
    assert_eq!((coloured, hatched + pale), (0, 2 * 1136));
    assert!(hatched > 2 * 1000 && pale >= 2 * 16, "{hatched} {pale}");
    // Coloured in all three panels; at least the first six states are pale in two.
    let [coloured, hatched, pale] = counts(&key_bit);
    assert_eq!((hatched, coloured % 3, coloured / 3 + pale / 2), (0, 0, 1136));
    assert!(pale >= 2 * 6 * 16, "{pale}");
    // One mask of sixteen is another: a byte of a state, and a column behind MixColumns, which 14 - 1 rounds have.
    assert_eq!(counts(&masks), [0, 2 * (70 - 13 + 4 * 13), 2 * (1136 - 70 - 3 * 13)]);
}

/// The file is its owner's alone, also where there was one before, and says so; what goes to standard output does not.
#[test]
fn a_picture_is_its_owner_s_alone() {
    let folder = Folder::new("mode");
    let old = folder.file("old.svg", "x".repeat(1 << 20));
    fs::set_permissions(&old, Permissions::from_mode(0o644)).unwrap();
    for file in [folder.path("new.svg"), old] {
        assert_eq!(printed(&format!("record --offset 3 --svg {file} {KEY} {BLOCK}")), "");
        assert_eq!(fs::metadata(&file).unwrap().permissions().mode() & 0o777, 0o600);
        let svg = fs::read_to_string(&file).unwrap();
        let away =
            "This picture gives the key away, covered or not: two states between which a round key is added differ in just \
                    that key.";
        let own = "slipgrease wrote it with mode 600, for its owner alone.";
        let foot = |svg: &str| {
            let lines = svg.lines().rev().skip(1).filter_map(|line| line.strip_suffix("</text>")?.rsplit_once('>'));
            lines.map(|(_, said)| said.to_string()).take(2).collect::<Vec<_>>()
        };
        assert_eq!(foot(&svg), [own, away], "{file}");
        assert_eq!(foot(&drawn("--offset 3", BLOCK))[0], away);
    }
}

/// Beside a picture of two sides what differs is still printed.
#[test]
fn what_differs_is_told_beside_its_picture() {
    let folder = Folder::new("told");
    let file = folder.path("two.svg");
    let said = differing(&format!("record --offset 3 --offset2 7 --svg {file} {KEY} {BLOCK}"));
    assert_eq!(said.lines().last(), Some("Under the masks nothing differs."));
    let svg = fs::read_to_string(&file).unwrap();
    for line in said.lines() {
        assert!(svg.contains(&format!(">{line}</text>")), "{line}");
    }
    assert!(svg.contains(">Mask(3) / Mask(7)</text>"));
}

/// A name may be any bytes, and what SVG would read in it is escaped.
#[test]
fn files_may_have_any_name() {
    let folder = Folder::new("names");
    let dump = folder.file("<a&b>", hex_lines());
    let mut picture = folder.path("p").into_bytes();
    picture.extend([0xff, 0xfe]);
    let words = ["record", "--against", &dump, KEY, BLOCK, "--svg"];
    let mut words: Vec<OsString> = words.iter().map(OsString::from).collect();
    words.push(OsString::from_vec(picture.clone()));
    assert_eq!(run(&words, &mut &[][..], &mut Vec::new(), &mut Vec::new()).unwrap_err().status, 3);
    let svg = fs::read_to_string(OsString::from_vec(picture)).unwrap();
    assert!(svg.contains("&lt;a&amp;b>") && !svg.contains("<a"));
}

/// 71 states that no run has.
fn hex_lines() -> String {
    format!("{PUBLISHED}\n").repeat(71)
}

/// README's picture is what the command under it draws.
#[test]
fn the_picture_of_the_readme_is_drawn_so() {
    let folder = Folder::new("readme");
    let file = folder.path("key-bit.svg");
    differing(&format!("record --offset 3 --key2 {OTHER_KEY} --svg {file} {KEY} {BLOCK}"));
    assert_eq!(fs::read_to_string(file).unwrap(), include_str!("../../../../../../docs/key-bit.svg"));
}
