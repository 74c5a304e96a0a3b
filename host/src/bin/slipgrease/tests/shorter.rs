//! Keys of 16 and of 24 bytes. What is expected is from FIPS 197, C.1 and C.2, and from NIST's files; the dumps are a run's own states.

use super::record::differing;
use super::{offsets::SIXTEEN, piped, printed, refused, typed, wrap, Folder, BLOCK, CIPHERTEXT, KEY};

const KEY_16: &str = "000102030405060708090a0b0c0d0e0f";
const KEY_24: &str = "000102030405060708090a0b0c0d0e0f1011121314151617";
const OF_16: &str = "69c4e0d86a7b0430d8cdb78070b4c55a";
const OF_24: &str = "dda97ca4864cdfe06eaf70a0ec0d7191";

#[test]
fn every_engine_has_the_rounds_of_the_key() {
    for (key, made) in [(KEY_16, OF_16), (KEY_24, OF_24), (KEY, CIPHERTEXT)] {
        assert_eq!(printed(&format!("encrypt {key} {BLOCK}")).trim(), made);
        assert_eq!(printed(&format!("decrypt {key} {made}")).trim(), BLOCK);
        for offset in (0..16).map(|offset| offset.to_string()).chain([SIXTEEN.to_string()]) {
            assert_eq!(printed(&format!("mask --offset {offset} --step 5 {key} {BLOCK}")).trim(), made);
            assert_eq!(printed(&format!("unmask --offset {offset} --masks {BLOCK} {key} {made}")).trim(), BLOCK);
        }
        let twice = format!("{made}\n{made}\n");
        assert_eq!(printed(&format!("blocks --offsets 3,15 {key} {BLOCK} {BLOCK}")), twice);
        assert_eq!(piped(&format!("expand | slipgrease encrypt --schedule - {BLOCK}"), key).trim(), made);
        assert_eq!(piped(&format!("expand | slipgrease mask --offset 3 --schedule - {BLOCK}"), key).trim(), made);
    }
}

#[test]
fn a_schedule_has_as_many_round_keys_as_its_key_makes() {
    let [of_16, of_24] = [KEY_16, KEY_24].map(|key| printed(&format!("expand {key}")));
    let (of_16, of_24): (Vec<&str>, Vec<&str>) = (of_16.lines().collect(), of_24.lines().collect());
    assert_eq!((of_16.len(), of_16[1], of_16[10]), (11, "d6aa74fdd2af72fadaa678f1d6ab76fe", "13111d7fe3944a17f307a78b4d2b30c5"));
    assert_eq!((of_24.len(), of_24[1], of_24[12]), (13, "10111213141516175846f2f95c43f4fe", "a4970a331a78dc09c418c271e3a41d5d"));
}

/// The words of each row behind a heading of so many lines: the number, the point, states, and the mask's name.
fn rows(line: &str, heading: usize) -> Vec<Vec<String>> {
    let said = printed(line);
    let words = |line: &str| line.split("  ").filter(|word| !word.is_empty()).map(|word| word.trim().to_string()).collect();
    said.lines().skip(heading).map(words).collect()
}

#[test]
fn a_record_has_the_rounds_of_its_key() {
    let plain = rows(&format!("record {KEY_16} {BLOCK}"), 1);
    assert_eq!(plain.len(), 51);
    let expected = [
        (2, "boxes 0", "63cab7040953d051cd60e0e7ba70e18c"),
        (6, "key 1", "89d810e8855ace682d1843d8cb128fe4"),
        (47, "boxes 9", "7a9f102789d5f50b2beffd9f3dca4ea7"),
        (48, "ShiftRows 9", "7ad5fda789ef4e272bca100b3d9ff59f"),
        (49, "key 10", OF_16),
        (50, "ciphertext", OF_16),
    ];
    for (n, name, state) in expected {
        assert_eq!(plain[n], [&n.to_string(), name, state]);
    }

    let back = rows(&format!("record --decrypt {KEY_16} {OF_16}"), 1);
    let expected = [
        (1, "key 10", "7ad5fda789ef4e272bca100b3d9ff59f"),
        (3, "correction 0", "7a9f102789d5f50b2beffd9f3dca4ea7"),
        (5, "key 9", "e9f74eec023020f61bf2ccf2353c21c7"),
        (59, "key 0", BLOCK),
        (60, "plaintext", BLOCK),
    ];
    assert_eq!(back.len(), 61);
    for (n, name, state) in expected {
        assert_eq!(back[n], [&n.to_string(), name, state]);
    }

    // Twelve rounds of step 5: the last labels are 60 on, which is 12.
    let masked = rows(&format!("record --offset {SIXTEEN} --step 5 {KEY_24} {BLOCK}"), 2);
    assert_eq!((masked.len(), &masked[59][1][..], &masked[59][5][..]), (61, "key 12", "ShiftRows(Mask(o+12))"));
    assert_eq!((&masked[60][1][..], &masked[60][4][..], &masked[60][5][..]), ("ciphertext", OF_24, "none"));
    let masked = rows(&format!("record --decrypt --offset 3 {KEY_24} {OF_24}"), 2);
    assert_eq!((masked.len(), &masked[1][1][..], &masked[71][1][..]), (73, "key 12", "key 0"));
    assert_eq!((&masked[71][5][..], &masked[72][4][..]), ("Mask(15)", BLOCK));
}

#[test]
fn a_pipe_s_key_is_counted_over_the_states_of_its_run() {
    let said = printed(&format!("pipe {KEY_16} {BLOCK}"));
    assert_eq!(said.matches(OF_16).count(), 17);
    assert!(said.contains(" 50 of 51 recorded states\n") && said.ends_with(" of 816 bytes.\n"), "{said}");
    let said = printed(&format!("pipe --json {KEY_24} {BLOCK}"));
    assert!(
        said.contains("\"states_differ\": {\"least\": 60, \"most\": 60, \"of\": 61}") && said.contains("\"of\": 976}"),
        "{said}"
    );
}

/// The last bit of the key is in the last byte of round key 0 with 16 bytes, and in byte 7 of round key 1 with 24. There the states of
/// C.1 and C.2 have f0 and 85, and the masks, whose labels are 3 + 15 and 4 + 7, are 36 and ac.
#[test]
fn two_runs_with_short_keys_stand_side_by_side() {
    for (key, bytes, states, first) in [
        (KEY_16, 816, "50 of 51", "state 1, byte 15 (key 0, round 0): first c6, second c7."),
        (KEY_24, 976, "55 of 61", "state 6, byte 7 (key 1, round 1): first 29, second 28."),
    ] {
        let other = format!("{}{:x}", &key[..key.len() - 1], u8::from_str_radix(&key[key.len() - 1..], 16).unwrap() ^ 1);
        let said = differing(&format!("record --offset 3 --key2 {other} {key} {BLOCK}"));
        let told: Vec<&str> = said.split_once("\n\n").unwrap().1.lines().collect();
        assert!(told[0].contains(&format!(" of {bytes} bytes differ, in {states} states: ")), "{}", told[0]);
        assert_eq!(told[1], format!("First difference: {first}"));
    }
}

#[test]
fn keys_of_two_lengths_do_not_stand_side_by_side() {
    let longer = "two runs stand side by side where their keys are equally long";
    let schedule = printed(&format!("expand {KEY_24}")).replace('\n', "");
    let cases = [
        (format!("--key2 {KEY_16} {KEY}"), "--key2: 16 bytes, and 32 are expected"),
        (format!("--offset 3 --json --key2 {KEY} {KEY_24}"), "--key2: 32 bytes, and 24 are expected"),
        (format!("--key2 {KEY_16} --schedule {schedule}"), "--key2: 16 bytes, and 24 are expected"),
    ];
    for (words, told) in cases {
        assert_eq!(refused(&format!("record {words} {BLOCK}")), (format!("{told}: {longer}"), 1));
    }
}

/// 61 states are those of two runs.
#[test]
fn a_dump_is_as_long_as_its_run() {
    let folder = Folder::new("shorter");
    let dump = |options: &str, key: &str, block: &str| {
        let rows = rows(&format!("record {options} {key} {block}"), 2);
        rows.iter().map(|row| format!("{}\n", row[4])).collect::<String>()
    };
    let (forth, back) = ("--offset 3 --step 5", "--decrypt --offset 3 --step 5");
    for (options, key, block, bytes) in
        [(forth, KEY_16, BLOCK, 816), (back, KEY_16, OF_16, 976), (forth, KEY_24, BLOCK, 976), (back, KEY_24, OF_24, 1168)]
    {
        let file = folder.file("dump", dump(options, key, block));
        let said = printed(&format!("record {options} --against {file} {key} {block}"));
        assert!(said.ends_with(&format!("\nNone of {bytes} bytes differs.\n")), "{said}");
        // The same at an offset that is one on.
        let file = folder.file("dump", dump(&options.replace('3', "4"), key, block));
        let said = differing(&format!("record {options} --against {file} {key} {block}"));
        assert!(said.ends_with("\nAll of its masks are those of offset 4.\nUnder the masks nothing differs.\n"), "{said}");
    }

    let cases = [
        ("", KEY_16, 976, "816 bytes or 51 lines of hex digits are expected; a decryption's dump is compared with --decrypt"),
        ("", KEY_24, 816, "976 bytes or 61 lines of hex digits are expected; so long is the dump of an encryption with a key of 16 bytes"),
        (
            "",
            KEY,
            976,
            "1136 bytes or 71 lines of hex digits are expected; so long is the dump of an encryption with a key of 24 bytes, or of a \
             decryption with a key of 16 bytes",
        ),
        ("--decrypt", KEY_16, 1168, "976 bytes or 61 lines of hex digits are expected; so long is the dump of a decryption with a key of 24 bytes"),
        ("", KEY_16, 815, "816 bytes or 51 lines of hex digits are expected"),
    ];
    // Nothing is said of the run itself, though there are as many lines.
    let one_short = |states: usize| folder.file("dump", format!("# a dump\n{}", format!("{BLOCK}\n").repeat(states)));
    let cases_of_lines = [
        ("", 50, "50 states, and 816 bytes or 51 lines of hex digits are expected"),
        ("--decrypt", 60, "60 states, and 976 bytes or 61 lines of hex digits are expected"),
    ];
    for (options, states, told) in cases_of_lines {
        let file = one_short(states);
        assert_eq!(refused(&format!("record {options} --against {file} {KEY_16} {BLOCK}")), (format!("{file}: {told}"), 1));
    }
    for (options, key, bytes, told) in cases {
        let file = folder.file("dump", vec![0; bytes]);
        let refusal = refused(&format!("record {options} --against {file} {key} {BLOCK}"));
        assert_eq!(refusal, (format!("{file}: {bytes} bytes, and {told}"), 1));
    }
}

#[test]
fn json_and_pictures_have_as_many_states() {
    for (key, bits, rounds) in [(KEY_16, 128, 10), (KEY_24, 192, 12), (KEY, 256, 14)] {
        for (options, each) in [("", 5), ("--decrypt", 6)] {
            let states = 1 + each * rounds;
            let said = printed(&format!("record --json {options} {key} {BLOCK}"));
            assert_eq!((said.matches("\"n\": ").count(), said.contains(&format!("\"n\": {}, ", states - 1))), (states, true));
            let said = printed(&format!("record --svg - {options} {key} {BLOCK}"));
            assert!(said.contains(&format!(">A run of AES-{bits}</text>")), "{bits}");
            assert_eq!((said.matches("class=\"number\"").count(), said.matches("class=\"round\"").count()), (states, rounds));
            assert_eq!(said.matches("class=\"byte\"").count(), 16 * states + 16);
            assert_eq!(said.matches(&format!(">key {rounds}</text>")).count(), 1);
        }
        let said = printed(&format!("record --offset 3 --offset2 3 --svg - {key} {BLOCK}"));
        assert!(said.contains(&format!(">Two runs of AES-{bits} side by side</text>")), "{bits}");
    }
}

/// The first two of ECBGFSbox128.rsp and of ECBGFSbox192.rsp, and the first of ECBMCT128.rsp.
#[test]
fn nist_s_files_for_short_keys_are_run() {
    let known = |bits: usize, pairs: [[&str; 2]; 2]| {
        let vector =
            |[plain, made]: [&str; 2]| format!("KEY = {}\nPLAINTEXT = {plain}\nCIPHERTEXT = {made}\n\n", "00".repeat(bits / 8));
        format!("# AESVS GFSbox test data for ECB\n# Key Length : {bits}\n\n[ENCRYPT]\n\n{}", pairs.map(vector).concat())
    };
    let of_128 = known(
        128,
        [
            ["f34481ec3cc627bacd5dc3fb08f273e6", "0336763e966d92595a567cc9ce537f5e"],
            ["9798c4640bad75c7c3227db910174e72", "a9a1631bf4996954ebc093957b234589"],
        ],
    );
    let of_192 = known(
        192,
        [
            ["1b077a6af4b7f98229de786d7516b639", "275cfc0413d8ccb70513c3859b1d0f72"],
            ["9c2d8842e5f48f57648205d39a239af1", "c9b8135ff1b5adc413dfd053b21bd96d"],
        ],
    );
    for file in [&of_128, &of_192] {
        assert_eq!(typed("vectors", file), ("vectors 2, compared 68, differ 0\n".to_string(), None));
        assert_eq!(typed("vectors", &file.replace(" = 00", " = 01")).1.unwrap().1, 2);
    }
    let chain = "# AESVS MCT test data for ECB\n[ENCRYPT]\nCOUNT = 0\nKEY = 139a35422f1d61de3c91787fe0507afd\n\
                 PLAINTEXT = b9145a768b7dc489a096b546f43b231f\nCIPHERTEXT = d7c3ffac9031238650901e157364c386\n";
    assert_eq!(typed("vectors", chain), ("vectors 1, compared 34, differ 0\n".to_string(), None));
    let lines = format!("{KEY_16} {BLOCK} {OF_16}\n{KEY_24} {BLOCK} {OF_24}\n{KEY} {BLOCK} {CIPHERTEXT}\n");
    assert_eq!(typed("vectors --step 5", &lines), ("vectors 3, compared 102, differ 0\n".to_string(), None));
}

/// And no short key scrambles packets.
#[test]
fn wrapping_keys_are_32_bytes() {
    let told = "a wrapping key is 32 bytes, and its schedule 240 (reply 2, SCHEDULE_LENGTH)";
    let schedule = printed(&format!("expand {KEY_16}")).replace('\n', "");
    let partner = wrap::PARTNER_FILE.split_whitespace().collect::<String>();
    for (line, seen) in [
        (format!("wrap {KEY_16} {BLOCK}"), "key, argument 1: 16 bytes"),
        (format!("wrap --offset 16 {KEY_24} 00"), "key, argument 1: 24 bytes"),
        (format!("unwrap {KEY_24} {partner}"), "key, argument 1: 24 bytes"),
        (format!("unwrap --offset 3 --schedule {schedule} {partner}"), "schedule, option --schedule: 176 bytes"),
    ] {
        assert_eq!(refused(&line), (format!("{seen}: {told}"), 1));
    }
    let folder = Folder::new("short-pipe");
    let pipes = folder.file("pipes.txt", format!("0100 {KEY_16} {KEY} {BLOCK}\n"));
    let told = format!("{pipes}, line 1, even key: hex digits: 32, expected: 64");
    assert_eq!(refused(&format!("scramble --even --pipes {pipes}")), (told, 1));
}

/// Others are none, however they are given.
#[test]
fn keys_of_other_lengths_are_refused() {
    for length in (1..70).filter(|length| ![16, 24, 32].contains(length)) {
        let (key, bytes) = ("07".repeat(length), if length == 1 { "byte" } else { "bytes" });
        let told = format!("key, argument 1: {length} {bytes}: the key is not 16, 24 or 32 bytes long (reply 1, KEY_LENGTH)");
        for command in ["encrypt", "decrypt", "mask --offset 3", "unmask --offset 3", "blocks --offsets 3", "record", "pipe"] {
            assert_eq!(refused(&format!("{command} {key} {BLOCK}")), (told.clone(), 1));
        }
    }
    let schedule = "07".repeat(192);
    let told = "schedule, option --schedule: 192 bytes: a schedule is 176, 208 or 240 bytes (reply 2, SCHEDULE_LENGTH)";
    for command in ["encrypt", "mask --offset 3", "blocks --offsets 3", "record", "record --decrypt --offset 3", "pipe"] {
        assert_eq!(refused(&format!("{command} --schedule {schedule} {BLOCK}")), (told.to_string(), 1));
    }
}
