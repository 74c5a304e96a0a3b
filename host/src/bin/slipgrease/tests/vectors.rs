//! Files of vectors: a vector to a line, and NIST's as they are published.

use super::{printed, refused, typed, Folder, BLOCK, CIPHERTEXT, KEY, NIST_KEY};
use std::fs;

/// ECBGFSbox256.rsp: plaintexts and ciphertexts under a key of zeros, both ways.
pub fn gfsbox() -> String {
    let pairs = [
        ("014730f80ac625fe84f026c60bfd547d", "5c9d844ed46f9885085e5d6a4f94c7d7"),
        ("0b24af36193ce4665f2825d7b4749c98", "a9ff75bd7cf6613d3731c77c3b6d0c04"),
        ("761c1fe41a18acf20d241650611d90f1", "623a52fcea5d443e48d9181ab32c7421"),
        ("8a560769d605868ad80d819bdba03771", "38f2c7ae10612415d27ca190d27da8b4"),
        ("91fbef2d15a97816060bee1feaa49afe", "1bc704f1bce135ceb810341b216d7abe"),
    ];
    let zeros = "00".repeat(32);
    let section = |name: &str, print: &dyn Fn(&str, &str) -> String| {
        let vectors = pairs
            .iter()
            .enumerate()
            .map(|(k, (plain, made))| format!("COUNT = {k}\r\nKEY = {zeros}\r\n{}\r\n", print(plain, made)));
        format!("[{name}]\r\n\r\n{}", vectors.collect::<String>())
    };
    let encrypt = section("ENCRYPT", &|plain, made| format!("PLAINTEXT = {plain}\r\nCIPHERTEXT = {made}\r\n"));
    let decrypt = section("DECRYPT", &|plain, made| format!("CIPHERTEXT = {made}\r\nPLAINTEXT = {plain}\r\n"));
    let head = "# CAVS 11.1\r\n# AESVS GFSbox test data for ECB\r\n# State : Encrypt and Decrypt\r\n# Key Length : 256\r\n\r\n";
    format!("{head}{encrypt}{decrypt}")
}

#[test]
fn vectors_are_counted_and_a_wrong_one_is_a_data_fault() {
    let folder = Folder::new("vectors");
    let file = folder.file("vectors.txt", format!("# C.3\n\n{KEY} {BLOCK} {CIPHERTEXT} # and a word on it\n"));
    let line = format!("vectors {file}");
    assert_eq!(printed(&line), "vectors 1, compared 34, differ 0\n");
    fs::write(&file, format!("{KEY} {BLOCK} {BLOCK}\n")).unwrap();
    let (out, failed) = typed(&line, "");
    assert!(out.ends_with("vectors 1, compared 34, differ 34\n"));
    assert_eq!(failed, Some((format!("{file}: 34 of 34 differ"), 2)));
    fs::remove_file(file).unwrap();
    assert_eq!(refused(&line).1, 1);
}

#[test]
fn vectors_come_through_standard_input() {
    let text = format!("{KEY} {BLOCK} {CIPHERTEXT}\n").repeat(2);
    for line in ["vectors", "vectors -", "vectors -- -"] {
        assert_eq!(typed(line, &text), ("vectors 2, compared 68, differ 0\n".to_string(), None));
    }
}

#[test]
fn nist_s_files_are_read_as_they_are_published() {
    assert_eq!(typed("vectors", &gfsbox()), ("vectors 10, compared 340, differ 0\n".to_string(), None));
    let spoiled = gfsbox().replacen("1bc704f1bce135ceb810341b216d7abe", &"00".repeat(16), 1);
    let (out, failed) = typed("vectors", &spoiled);
    let told = "standard input, line 29, [ENCRYPT], COUNT = 4, encrypt: made 1bc704f1bce135ceb810341b216d7abe, expected ";
    assert!(out.starts_with(&format!("{told}{}\n", "00".repeat(16))), "{out}");
    assert!(out.ends_with("vectors 10, compared 340, differ 34\n"));
    assert_eq!(failed, Some(("standard input: 34 of 340 differ".to_string(), 2)));
}

/// As other tools write them: without blanks beside the =, or on one side of it, and with a byte order mark in front.
#[test]
fn an_equals_sign_needs_no_blanks() {
    let ten = ("vectors 10, compared 340, differ 0\n".to_string(), None);
    for equals in ["=", "= ", " ="] {
        assert_eq!(typed("vectors", &gfsbox().replace(" = ", equals)), ten, "{equals}");
    }
    assert_eq!(typed("vectors", &format!("\u{feff}{}", gfsbox())), ten);
    assert_eq!(typed("vectors", &format!("\u{feff}{KEY} {BLOCK} {CIPHERTEXT}")).1, None);
    let head = format!("\u{feff}# AESVS MCT test data for ECB\nKEY={KEY}\nPLAINTEXT={BLOCK}\nCIPHERTEXT={CIPHERTEXT}\n");
    assert_eq!(typed("vectors", &head).1.unwrap().1, 2);
    // It stands in front of the first line alone.
    assert_eq!(typed("vectors", &format!("\n\u{feff}{KEY} {BLOCK} {CIPHERTEXT}")).1.unwrap().1, 1);
}

/// Of SP 800-38A, F.1.5, the third block and the last, as ECBMMT256.rsp has more than one to a vector.
#[test]
fn a_message_of_many_blocks_is_as_many_vectors() {
    let (blocks, ciphertexts) = (
        "30c81c46a35ce411e5fbc1191a0a52eff69f2445df4f9b17ad2b417be66c3710",
        "b6ed21b99ca6f4f9f153e7b1beafed1d23304b7a39f9f3ff067d8d8f9e24ecc7",
    );
    let text = format!("[ENCRYPT]\n\nCOUNT = 1\nKEY = {NIST_KEY}\nPLAINTEXT = {blocks}\nCIPHERTEXT = {ciphertexts}\n");
    assert_eq!(typed("vectors", &text), ("vectors 2, compared 68, differ 0\n".to_string(), None));
    let (out, _) = typed("vectors", &text.replace("ecc7\n", "ecc8\n"));
    assert!(out.starts_with("standard input, line 4, [ENCRYPT], COUNT = 1, block 2, encrypt: made 23304b7a"), "{out}");
}

/// The first two vectors of ECBMCT256.rsp: the second block is what a thousand encryptions made of the first.
#[test]
fn a_thousand_encryptions_lie_between_where_the_head_says_so() {
    let text = "# AESVS MCT test data for ECB\n[ENCRYPT]\n\nCOUNT = 0\n\
                KEY = f9e8389f5b80712e3886cc1fa2d28a3b8c9cd88a2d4a54c6aa86ce0fef944be0\n\
                PLAINTEXT = b379777f9050e2a818f2940cbbd9aba4\nCIPHERTEXT = 6893ebaf0a1fccc704326529fdfb60db\n\nCOUNT = 1\n\
                KEY = db9ea5a2284fa17fb63e13bf891c8e42e40f332527559801aeb4ab26126f2b3b\n\
                PLAINTEXT = 6893ebaf0a1fccc704326529fdfb60db\nCIPHERTEXT = f3c78a5e85e5439bf26d5818718157d6\n";
    assert_eq!(typed("vectors", text), ("vectors 2, compared 68, differ 0\n".to_string(), None));
    assert_eq!(typed("vectors", &text.replace("MCT", "KAT")).1.unwrap().1, 2);
}

#[test]
fn a_line_that_is_wrong_is_named() {
    let length = "a block is 16 bytes (reply 3, INPUT_LENGTH)";
    let field = format!("KEY = {KEY}\nPLAINTEXT = {BLOCK}\n");
    let cases = [
        (
            format!("{KEY} {BLOCK}\n"),
            ", line 1: 2 words, and key, block and ciphertext are expected, or a line of NIST's files".into(),
        ),
        (format!("\n{KEY} {BLOCK} 00\n"), format!(", line 2, ciphertext: 1 byte: {length}")),
        (format!("{KEY} {BLOCK} 0g"), ", line 1, ciphertext: 'g' at digit 2 is not a hex digit".into()),
        (
            format!("COUNT = 0\nKEY = {}\nPLAINTEXT = {BLOCK}\nCIPHERTEXT = {BLOCK}\n", &KEY[..40]),
            ", line 2, COUNT = 0, KEY: 20 bytes: the key is not 16, 24 or 32 bytes long (reply 1, KEY_LENGTH)".into(),
        ),
        (
            format!("{field}CIPHERTEXT = {BLOCK}{BLOCK}\n"),
            ", line 1, CIPHERTEXT: 32 bytes, and 16 are expected, as PLAINTEXT has them".into(),
        ),
        (format!("[DECRYPT]\n{field}"), ", line 2: of the vector that begins here, CIPHERTEXT is missing".into()),
        (format!("{field}\nCOUNT = 2\n"), ", line 1: of the vector that begins here, CIPHERTEXT is missing".into()),
        (format!("{field}[DECRYPT]\n"), ", line 1: of the vector that begins here, CIPHERTEXT is missing".into()),
        (format!("{field}{field}"), ", line 3: a second KEY in one vector".into()),
        (
            format!("KEY = {KEY}\nIV = {BLOCK}\n"),
            ", line 2: IV, and COUNT, KEY, PLAINTEXT or CIPHERTEXT is expected, as ECB has them".into(),
        ),
        ("# C.3\n".into(), ": no vector in it, and key, block and ciphertext are expected".into()),
    ];
    for (text, message) in cases {
        assert_eq!(typed("vectors", &text), (String::new(), Some((format!("standard input{message}"), 1))));
        assert_eq!(typed("vectors --json", &text), (String::new(), Some((format!("standard input{message}"), 1))));
    }
}

#[test]
fn what_differs_is_told_as_json() {
    let right =
        "{\n  \"file\": \"standard input\",\n  \"step\": 5,\n  \"differences\": [],\n  \"vectors\": 1,\n  \"compared\": 34,\n  \
                 \"differ\": 0\n}\n";
    let vector = format!("{KEY} {BLOCK} {CIPHERTEXT}\n");
    assert_eq!(typed("vectors --json --step 5", &vector), (right.to_string(), None));

    let folder = Folder::new("json");
    let file = folder.file("\"a\\\u{1}.txt", format!("{vector}{KEY} {BLOCK} {BLOCK}\n"));
    let (out, failed) = typed(&format!("vectors --json {file}"), "");
    assert_eq!(failed.unwrap().1, 2);
    let lines: Vec<&str> = out.lines().collect();
    assert!(lines[1].ends_with("/\\\"a\\\\\\\\u{1}.txt\",") && lines[3] == "  \"differences\": [", "{out}");
    let first =
        "    {\"line\": 2, \"place\": \"line 2\", \"command\": \"encrypt\", \"made\": \"8ea2b7ca516745bfeafc49904b496089\", \
                 \"expected\": \"00112233445566778899aabbccddeeff\"},";
    assert_eq!(lines[4], first);
    assert!(lines[37].ends_with("}") && lines[38] == "  ],", "{out}");
    assert_eq!(lines[39..], ["  \"vectors\": 2,", "  \"compared\": 68,", "  \"differ\": 34", "}"]);

    // What follows is refused, and the object is closed all the same.
    let (out, failed) = typed("vectors --json", &format!("{KEY} {BLOCK} {BLOCK}\n{KEY}\n"));
    assert!(out.ends_with("\n  ],\n  \"vectors\": 1,\n  \"compared\": 34,\n  \"differ\": 34\n}\n"), "{out}");
    assert_eq!(failed.unwrap().1, 1);
}
