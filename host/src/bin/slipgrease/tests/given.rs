//! Words, wherever they stand: options, arguments, files and standard input.

use super::{printed, refused, run, typed, Folder, BLOCK, CIPHERTEXT, COMMANDS, KEY, NIST_KEY, PUBLISHED};
use std::ffi::OsString;
use std::io::{self, BufReader, Read};

#[test]
fn a_key_need_not_be_an_argument() {
    let folder = Folder::new("key");
    let file = folder.file("key.txt", format!("  {}\r\n{}\n", &KEY[..33], &KEY[33..]));
    let wrapped = "64e8c3f9ce0f5ba263e9777905818a2a93c8191e7d6e8ae7";
    let schedule = printed(&format!("expand {KEY}"));
    let cases = [
        ("expand", "", schedule.trim()),
        ("encrypt", BLOCK, CIPHERTEXT),
        ("decrypt", CIPHERTEXT, BLOCK),
        ("mask --offset 3", BLOCK, CIPHERTEXT),
        ("unmask --offset 3", CIPHERTEXT, BLOCK),
        ("blocks --offsets 3", BLOCK, CIPHERTEXT),
        ("wrap", BLOCK, wrapped),
        ("unwrap", wrapped, BLOCK),
    ];
    for (command, block, made) in cases {
        for option in ["--key-file ", "--key-file="] {
            assert_eq!(printed(&format!("{command} {option}{file} {block}")).trim(), made);
        }
        let through_input = |line: String| {
            let (out, failed) = typed(&line, KEY);
            assert_eq!((out.trim(), failed), (made, None), "{line}");
        };
        through_input(format!("{command} - {block}"));
        through_input(format!("{command} {block} --key-file -"));
    }
    for command in ["record", "pipe"] {
        assert_eq!(printed(&format!("{command} --key-file {file} {BLOCK}")), printed(&format!("{command} {KEY} {BLOCK}")));
    }
    let both = refused(&format!("encrypt --key-file {file} --schedule 00 {BLOCK}"));
    assert_eq!(both, ("--schedule and --key-file are both given, and one of them is expected".to_string(), 1));
    let none = folder.path("none");
    assert!(refused(&format!("encrypt --key-file {none} {BLOCK}")).0.starts_with(&format!("{none}: No such file")));
    assert_eq!(refused(&format!("encrypt --key-file {} {BLOCK}", folder.path(""))).1, 1);
    let short = folder.file("short.txt", &KEY[2..]);
    let told = refused(&format!("encrypt --key-file {short} {BLOCK}")).0;
    assert_eq!(told, format!("key, {short}: 31 bytes: the key is not 16, 24 or 32 bytes long (reply 1, KEY_LENGTH)"));
}

#[test]
fn a_dash_is_the_next_word_of_standard_input() {
    let cases = [
        (format!("encrypt {KEY} -"), BLOCK.to_string(), CIPHERTEXT.to_string()),
        ("encrypt - -".to_string(), format!("{KEY} {BLOCK}"), CIPHERTEXT.to_string()),
        ("mask --offset - --step=- - -".to_string(), format!("3 5\n{KEY}\n{BLOCK}\n"), CIPHERTEXT.to_string()),
        (format!("mask --offset 3 --masks - {KEY} {BLOCK}"), PUBLISHED.to_string(), CIPHERTEXT.to_string()),
        ("blocks --offsets - - -".to_string(), format!("0,15 {KEY} {BLOCK} {BLOCK}"), format!("{CIPHERTEXT}\n{CIPHERTEXT}")),
        (format!("blocks --offsets 0,15 {KEY} {BLOCK} -"), BLOCK.to_string(), format!("{CIPHERTEXT}\n{CIPHERTEXT}")),
        ("convert - 2".to_string(), PUBLISHED.to_string(), "00".repeat(16)),
        ("convert -".to_string(), format!("{PUBLISHED} 2\n{PUBLISHED} 2\n"), format!("{0}\n{0}", "00".repeat(16))),
        ("fitness -".to_string(), PUBLISHED.to_string(), "1 fit".to_string()),
        ("sheet write -".to_string(), PUBLISHED.to_string(), format!("4d534b0001{PUBLISHED}")),
    ];
    for (line, input, made) in cases {
        assert_eq!(typed(&line, &input), (format!("{made}\n"), None), "{line}");
    }
    let message = "--offset is missing: it is expected on standard input; slipgrease mask --help says more";
    assert_eq!(refused(&format!("mask --offset - {KEY} {BLOCK}")), (message.to_string(), 1));
}

#[test]
fn words_left_over_on_standard_input_are_too_many() {
    let too_many = |line: &str, input: String, place: &str| {
        let command = line.split(' ').next().unwrap();
        let message = format!("{place} is one word too many; slipgrease {command} --help says more");
        assert_eq!(typed(line, &input), (String::new(), Some((message, 1))), "{line}");
    };
    let masks = BLOCK;
    too_many("expand", format!("{KEY} {KEY}"), "word 2 of standard input");
    too_many("encrypt", format!("{KEY}\n{BLOCK}\n\n00\n"), "word 3 of standard input");
    too_many(&format!("decrypt {KEY}"), format!("{BLOCK} {KEY}"), "word 2 of standard input");
    too_many(&format!("mask --offset 1 - {BLOCK}"), format!("{KEY} {KEY}"), "word 2 of standard input");
    too_many("unmask --offset - --masks 00", format!("1 {KEY} {BLOCK} x"), "word 4 of standard input");
    too_many(&format!("wrap - {BLOCK}"), format!("{KEY}\n{KEY}"), "word 2 of standard input");
    too_many(&format!("blocks --offsets 1 - {BLOCK}"), format!("{KEY}\n{KEY}"), "word 2 of standard input");
    too_many("record", format!("{KEY} {BLOCK} {BLOCK}"), "word 3 of standard input");
    too_many("pipe", format!("{KEY} {BLOCK} {BLOCK}"), "word 3 of standard input");
    too_many("sheet read", format!("4d534b0001{masks} 1"), "word 2 of standard input");
    too_many("report", format!("4d534b0001{masks} 1"), "word 2 of standard input");
    too_many("sheet write", format!("{masks} 1"), "word 2 of standard input");
    too_many("fitness", format!("{masks} {masks}"), "word 2 of standard input");
    too_many(&format!("convert {BLOCK}"), "1 2".to_string(), "word 2 of standard input");
    // Where no word is taken from there, nothing of it is looked at.
    assert_eq!(typed(&format!("encrypt {KEY} {BLOCK}"), "and more"), (format!("{CIPHERTEXT}\n"), None));
}

/// Words without an end, and lines without one. A command that kept all of them would not come back.
#[test]
fn an_endless_standard_input_is_given_up() {
    for (name, _) in COMMANDS.iter().filter(|(name, _)| !name.ends_with("scramble")) {
        let offsets = if *name == "blocks" { "--offsets=1" } else { "--" };
        let words = [OsString::from(name), offsets.into()];
        for endless in [0, b'0'] {
            let mut input = BufReader::new(io::repeat(endless));
            let fault = run(&words, &mut input, &mut io::sink(), &mut io::sink()).unwrap_err();
            assert!(fault.message.ends_with("longer than 16384 bytes, which no command takes"), "{name}: {}", fault.message);
            assert_eq!(fault.status, 1);
        }
    }
    for (line, message) in [
        (format!("encrypt --schedule - {BLOCK}"), "standard input: longer than 16384 bytes, which no command takes"),
        (format!("encrypt --key-file /dev/zero {BLOCK}"), "/dev/zero: longer than 16384 bytes, which no command takes"),
        ("vectors /dev/zero".to_string(), "/dev/zero, line 1: longer than 16384 bytes, which no command takes"),
    ] {
        let words: Vec<OsString> = line.split(' ').map(OsString::from).collect();
        let fault = run(&words, &mut BufReader::new(io::repeat(b'0')), &mut io::sink(), &mut io::sink()).unwrap_err();
        assert_eq!((fault.message.as_str(), fault.status), (message, 1));
    }
    let lines = format!("{BLOCK} 0\n").repeat(1 << 16);
    let mut input = BufReader::new(lines.as_bytes().chain(lines.as_bytes()));
    let fault = run(&["convert".into()], &mut input, &mut io::sink(), &mut io::sink()).unwrap_err();
    let message = "line 65537 of standard input: more than 65536 stored blocks, and at most so many are expected at once";
    assert_eq!((fault.message.as_str(), fault.status), (message, 1));
    assert_eq!(typed("convert", &lines).1, None);
}

#[test]
fn options_have_the_usual_ways_to_be_written() {
    for line in [
        format!("mask --offset=3 --step=5 {KEY} {BLOCK}"),
        format!("mask --offset 3 -- {KEY} {BLOCK}"),
        format!("mask {KEY} --masks={PUBLISHED} --offset=3 -- {BLOCK}"),
    ] {
        assert_eq!(printed(&line).trim(), CIPHERTEXT, "{line}");
    }
    let cases = [
        (format!("mask --offset=3 --offset 3 {KEY} {BLOCK}"), "--offset is given twice; slipgrease mask --help says more"),
        (format!("record --decrypt=yes {KEY} {BLOCK}"), "--decrypt takes no value; slipgrease record --help says more"),
        (
            format!("mask --offset= {KEY} {BLOCK}"),
            "--offset '': a decimal number from 0 to 15 is expected, or sixteen with commas between them; slipgrease mask --help \
             says more",
        ),
        (format!("mask --offsets=3 {KEY} {BLOCK}"), "no option --offsets here; slipgrease mask --help says more"),
        (format!("encrypt --key={KEY} {BLOCK}"), "no option --key here; slipgrease encrypt --help says more"),
        (
            format!("mask {KEY} {BLOCK} --offset -- 3"),
            "--offset is the last word, and a value is expected behind it; slipgrease mask --help says more",
        ),
        (
            format!("encrypt --key-file= {BLOCK}"),
            "--key-file '': the name of a file is expected, or -; slipgrease encrypt --help says more",
        ),
        (
            format!("record --svg= {KEY} {BLOCK}"),
            "--svg '': the name of a file is expected, or -; slipgrease record --help says more",
        ),
        (format!("encrypt -- --offset {BLOCK}"), "key, argument 1: '-' at digit 1 is not a hex digit"),
        (format!("encrypt -- {KEY} --help"), "block, argument 2: '-' at digit 1 is not a hex digit"),
        (
            "mask --offset 3 --form=1 00 00".to_string(),
            "--form: form 1 has retired, and every block comes out in the standard form; \
          slipgrease convert makes the standard block of one that was stored in form 1",
        ),
    ];
    for (line, message) in cases {
        assert_eq!(refused(&line), (message.to_string(), 1));
    }
}

#[test]
fn numbers_are_decimal_and_told_as_they_were_typed() {
    let range = "an offset is 0 to 15 (reply 6, OFFSET_RANGE)";
    let decimal = "decimal numbers from 0 to 15 are expected, with commas between them; slipgrease blocks --help says more";
    let cases = [
        ("mask --offset 016", format!("--offset 016: {range}")),
        ("mask --offset 271", format!("--offset 271: {range}")),
        ("mask --offset 99999999999999999999999999", format!("--offset 9999.. (26 digits): {range}")),
        ("blocks --offsets 3,16", format!("--offsets, for block 2: 16: {range}")),
        ("blocks --offsets 272,3", format!("--offsets, for block 1: 272: {range}")),
        ("blocks --offsets 030f", format!("--offsets 030f: {decimal}")),
        ("blocks --offsets 3,,4", format!("--offsets, for block 2: '': {decimal}")),
        ("blocks --offsets 3,-1", format!("--offsets, for block 2: -1: {decimal}")),
        (
            "wrap --offset +3",
            "--offset +3: a decimal number from 0 to 15 is expected; slipgrease wrap --help says more".to_string(),
        ),
        (
            "mask --offset 1 --step 0x5",
            "--step 0x5: a decimal number is expected, 1 or 4 to 15; slipgrease mask --help says more".to_string(),
        ),
    ];
    for (line, message) in cases {
        let blocks = if line.starts_with("blocks") { format!("{BLOCK} {BLOCK}") } else { BLOCK.to_string() };
        assert_eq!(refused(&format!("{line} {KEY} {blocks}")), (message, 1));
    }
}

/// A word may be a key that stands in a wrong place, or bytes that a terminal would obey.
#[test]
fn no_key_and_no_escape_code_is_repeated() {
    let lines = [
        format!("encrypt {KEY} {BLOCK} {NIST_KEY}"),
        format!("scramble --odd --pipes none a b {NIST_KEY}"),
        format!("{NIST_KEY} {BLOCK}"),
        format!("help {NIST_KEY}"),
        format!("mask --offset {NIST_KEY} {KEY} {BLOCK}"),
        format!("mask --offset 3,{NIST_KEY},5 {KEY} {BLOCK}"),
        format!("mask --offset 1 --step {NIST_KEY} {KEY} {BLOCK}"),
        format!("blocks --offsets {NIST_KEY} {KEY} {BLOCK}"),
        format!("encrypt --{NIST_KEY} {BLOCK}"),
        format!("encrypt --key={NIST_KEY} {BLOCK}"),
        format!("convert {BLOCK} {NIST_KEY}"),
        format!("sheet {NIST_KEY}"),
        format!("completion {NIST_KEY}"),
    ];
    for line in lines {
        let (message, status) = refused(&line);
        assert_eq!(status, 1);
        assert!(!message.contains(&NIST_KEY[..8]), "{message}");
        let (message, _) = refused(&line.replace(NIST_KEY, "\u{1b}[2J\u{9b}"));
        assert!(!message.chars().any(char::is_control), "{message:?}");
    }
    assert_eq!(refused("expand \u{1b}").0, "key, argument 1: '\\u{1b}' at digit 1 is not a hex digit");
    // An escape is written whole or not at all.
    let none = |shown: &str| format!("no command {shown}; slipgrease --help lists them");
    assert_eq!(refused("\u{1}\u{2}\u{3}").0, none("\\u{1}\\u{2}\\u{3}"));
    assert_eq!(refused(&"\u{9b}".repeat(13)).0, none("\\u{9b}\\u{9b}\\u{9b}\\u{9b}.."));
}

#[test]
fn the_pipe_s_key_is_told_as_json() {
    let said = printed(&format!("pipe --json {KEY} {BLOCK}"));
    let head = format!("{{\n  \"block\": \"{BLOCK}\",\n  \"rack\": \"{CIPHERTEXT}\",\n  \"step\": 1,\n  \"module\": [\n");
    assert!(said.starts_with(&head), "{said}");
    assert_eq!(said.matches(&format!("\"key\": \"{CIPHERTEXT}\", \"equal\": true}}")).count(), 16);
    assert!(said.contains("    {\"offset\": 0, \"covered\": \"001e140a1709031d1d0309170a141e00\", \"key\""));
    assert!(said.contains("true}\n  ],\n  \"equal\": 16,\n  \"states_differ\": {\"least\": 70, \"most\": 70, \"of\": 71},\n"));
    assert!(said.ends_with(", \"of\": 1136}\n}\n"));
}
