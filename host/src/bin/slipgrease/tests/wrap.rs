//! Key wrap. What is expected is from RFC 3394 or made by OpenSSL's AES-256 key wrap, which takes any initial value; the registers
//! of damaged keys were worked out by Python's cryptography over single blocks.

use super::{piped, printed, refused, typed, BLOCK, KEY};

/// RFC 3394, 4.3, 4.5 and 4.6: key data and its wrapped key, all under one wrapping key.
const WRAPS: [(&str, &str); 3] = [
    (BLOCK, "64e8c3f9ce0f5ba263e9777905818a2a93c8191e7d6e8ae7"),
    ("00112233445566778899aabbccddeeff0001020304050607", "a8f9bc1612c68b3ff6e6f4fbe30e71e4769c8b80a32cb8958cd5d17d6b254da1"),
    (
        "00112233445566778899aabbccddeeff000102030405060708090a0b0c0d0e0f",
        "28c9f404c4b810f4cbccb35cfb87f8263f5786e2d80ed326cbc7f0e71a99f43bfb988b9b7a02dd21",
    ),
];

/// That of 4.6, broken within a byte, with the ends of lines and the large letters that other systems write.
pub const PARTNER_FILE: &str = "28C9F404C4B810F4 CBCCB35CFB87F8263F5\r\n\r\n786E2D80ED326CBC7F0E71A99F43BFB988B9B7A02DD21\r\n";

/// The bytes 00 to ff, wrapped.
const LONGEST: &str = "
0a5f7fea96b29e0b512e9ef0d54d7ab23fbf8a387bef75d7488b7b31416b9d8bc4f91fb714ec6c32919a59c0a1c04be8
e338888728ce8d3d4e9736bcda2d6be24a01e41e3e84d6c5db5462fc4f037f21e64a927405a571698ed65111b5575793
4b6da2b00bf0240c2595365a2930d8eba03557fdea178380d53730e20713f7fcbc4cedf8af6295eacf310f04c74c59f4
b027c25cf0208ad1d4ffc76eb49050523c1c400acd4087b176c32c9dd3016e9f95604665fface600d106d5051728e871
7320858bace0b0b78610bc356f00388da2ce3d0427c55f69dc2d8588053d121a5f5cefac41c003d908b717bac89fa0df
932e7f77f542aa358f6020917b64a942a4b644c6e887d2b9
";

#[test]
fn key_data_is_wrapped_and_opened_by_either_engine() {
    for (data, wrapped) in WRAPS {
        assert_eq!(printed(&format!("wrap {KEY} {data}")).trim(), wrapped);
        assert_eq!(printed(&format!("unwrap {KEY} {wrapped}")).trim(), data);
        for offset in 0..16 {
            assert_eq!(printed(&format!("wrap --offset {offset} {KEY} {data}")).trim(), wrapped);
            assert_eq!(printed(&format!("unwrap {KEY} {wrapped} --offset {offset}")).trim(), data);
        }
    }
}

#[test]
fn many_words_are_one_key() {
    let all: String = (0..=255).map(|byte| format!("{byte:02x}")).collect();
    let longest: String = LONGEST.split_whitespace().collect();
    assert_eq!(typed(&format!("unwrap {KEY}"), LONGEST), (format!("{all}\n"), None));
    assert_eq!(typed("unwrap --offset 7", &format!("{KEY}\n{LONGEST}")), (format!("{all}\n"), None));
    assert_eq!(printed(&format!("unwrap {KEY} {LONGEST}")).trim(), all);
    assert_eq!(printed(&format!("wrap {KEY} {} {}", &all[..301], &all[301..])).trim(), longest);
    assert_eq!(typed(&format!("wrap {KEY}"), &all), (format!("{longest}\n"), None));
}

/// The first 32 bytes of a schedule are the key.
#[test]
fn a_partner_s_key_goes_on_into_its_schedule() {
    let schedule = printed(&format!("expand {}", WRAPS[2].0));
    assert_eq!(piped(&format!("unwrap {KEY} | slipgrease expand"), PARTNER_FILE), schedule);
    assert_eq!(piped(&format!("unwrap --offset 9 {KEY} | slipgrease expand"), PARTNER_FILE), schedule);
    assert_eq!(piped(&format!("wrap --schedule - {BLOCK}"), &printed(&format!("expand {KEY}"))).trim(), WRAPS[0].1);
}

/// That of 4.6 wrapped under other initial values, the first and the last byte of it damaged by a bit, and one of NIST's that fail.
#[test]
fn a_broken_wrap_is_a_data_fault_and_its_register_is_told() {
    let nist_key = "08c936b25b567a0aa679c29f201bf8b190327df0c2563e39cee061f149f4d91b";
    let cases = [
        (KEY, "558eadda00bd8a4b021fe5d9977362b52b6dd78d916314882f6980f8451d0e2617b4f5e5efe7932c", "0123456789abcdef"),
        (KEY, "7035afe3a1f6314570a750c0447e20eade73322d40ec4bfc1380bf097b0dc638bc275cb34c63803a", "a6a6a6a6a6a6a6a7"),
        (KEY, "b899c8405faa4223d02f8fec09c0c3ab03b8a61983d9643b585caac9b23b3ff526de266643c90f3b", "26a6a6a6a6a6a6a6"),
        (KEY, "a8c9f404c4b810f4cbccb35cfb87f8263f5786e2d80ed326cbc7f0e71a99f43bfb988b9b7a02dd21", "01a78571c6884601"),
        (KEY, "28c9f404c4b810f4cbccb35cfb87f8263f5786e2d80ed326cbc7f0e71a99f43bfb988b9b7a02dd20", "8decc2a1531dfa98"),
        (nist_key, "e227eb8ae9d239ccd8928adec39c28810ca9b3dc1f366444", "6100e16a9738d408"),
    ];
    for (key, wrapped, register) in cases {
        let told = format!("integrity: the register is {register}, not a6a6a6a6a6a6a6a6 (reply 18, INTEGRITY)");
        assert_eq!(refused(&format!("unwrap {key} {wrapped}")), (format!("wrapped key, argument 2: {told}"), 2));
        assert_eq!(refused(&format!("unwrap --offset 5 {key} {wrapped}")), (format!("wrapped key, argument 2: {told}"), 2));
        let from_a_file = typed(&format!("unwrap {key}"), wrapped);
        assert_eq!(from_a_file, (String::new(), Some((format!("wrapped key, standard input: {told}"), 2))));
    }
}

#[test]
fn what_is_wrong_otherwise_is_a_caller_fault() {
    let length = "the key data is not 16 to 256 bytes long in a multiple of 8 (reply 16, KEY_DATA_LENGTH)";
    let range = "an offset is 0 to 15 (reply 6, OFFSET_RANGE)";
    let (short, long) = (&BLOCK[2..], "00".repeat(264));
    let cases = [
        (format!("wrap {KEY} {short}"), format!("key data, argument 2: 15 bytes: {length}")),
        (format!("wrap {KEY} {BLOCK} 00"), format!("key data, the last arguments: 17 bytes: {length}")),
        (format!("wrap --offset 15 {KEY} {long}"), format!("key data, argument 2: 264 bytes: {length}")),
        (format!("wrap --offset 16 {KEY} {short}"), format!("--offset 16: {range}")),
        (
            format!("wrap {} {short}", &KEY[2..]),
            "key, argument 1: 31 bytes: the key is not 16, 24 or 32 bytes long (reply 1, KEY_LENGTH)".into(),
        ),
        (
            format!("wrap --offset 16 --schedule {KEY} {BLOCK}"),
            "schedule, option --schedule: 32 bytes: a wrapping key is 32 bytes, and its schedule 240 (reply 2, SCHEDULE_LENGTH)"
                .into(),
        ),
        (format!("unwrap {KEY} a6"), format!("wrapped key, argument 2: 1 byte, so 0 of key data: {length}")),
        (format!("unwrap {KEY} {BLOCK}"), format!("wrapped key, argument 2: 16 bytes, so 8 of key data: {length}")),
        (
            format!("unwrap --offset 0 {KEY} {}", &WRAPS[0].1[2..]),
            format!("wrapped key, argument 2: 23 bytes, so 15 of key data: {length}"),
        ),
        (format!("unwrap --offset 256 {KEY} {BLOCK}"), format!("--offset 256: {range}")),
        (format!("unwrap {KEY} 0g"), "wrapped key, argument 2: 'g' at digit 2 is not a hex digit".into()),
        (
            format!("unwrap {KEY}"),
            "the wrapped key is missing: it is expected as an argument or on standard input; slipgrease unwrap --help says more"
                .into(),
        ),
        (format!("wrap --step 5 {KEY} {BLOCK}"), "no option --step here; slipgrease wrap --help says more".into()),
    ];
    for (line, message) in cases {
        assert_eq!(refused(&line), (message, 1), "{line}");
    }
}
