//! What the commands are given: words, the file of pipes, and the ends of a stream.

use super::{example, list, Folder, KEY, START};
use crate::run;
use crate::tests::refused;
use std::ffi::OsStr;
use std::fs;
use std::os::unix::ffi::{OsStrExt, OsStringExt};

#[test]
fn words_are_asked_for() {
    let folder = Folder::new("words");
    let pipes = folder.file("pipes.txt", list());
    let cases = [
        (
            format!("scramble --pipes {pipes}"),
            "--even or --odd is missing: which of a pipe's two keys scrambles is the caller's to choose",
        ),
        (format!("scramble --odd --even --pipes {pipes}"), "--even and --odd are both given, and one of them is expected"),
        (format!("descramble --even --pipes {pipes}"), "no option --even here; slipgrease descramble --help says more"),
        (format!("descramble --pipes {pipes} --pass --pass"), "--pass is given twice; slipgrease descramble --help says more"),
        ("scramble --odd".to_string(), "--pipes is missing: a file with a line for each of the seven pipes is expected"),
        (
            format!("scramble --odd --pipes {pipes} a b c"),
            "argument 3 is one word too many; slipgrease scramble --help says more",
        ),
        ("scramble --odd --pipes -".to_string(), "standard input cannot be both the file of pipes and the stream"),
    ];
    for (line, message) in cases {
        assert_eq!(refused(&line), (message.to_string(), 1), "{line}");
    }
}

/// The file of pipes with one of its lines, which are counted from 1, made of other words.
fn with_line(number: usize, line: &str) -> String {
    let lines = list().lines().map(str::to_string).collect::<Vec<_>>();
    lines.iter().enumerate().map(|(k, its)| format!("{}\n", if k + 1 == number { line } else { its })).collect()
}

/// The line and the word are named, and no digit of a key is told.
#[test]
fn a_faulty_file_of_pipes_is_told_without_its_keys() {
    let folder = Folder::new("faulty");
    let wrong =
        "the list is not 3,486 bytes long, or has a PID outside 0010 to 1ffe, or the same PID twice (reply 22, PIPES_WRONG)";
    let expected = "PID, even key, odd key and starting block are expected";
    let lines: Vec<String> = list().lines().map(str::to_string).collect();
    let cases = [
        (with_line(1, &format!("0100 {KEY} {KEY}")), format!(", line 1: 3 words, and {expected}")),
        (with_line(1, KEY), format!(", line 1: 1 word, and {expected}")),
        (with_line(5, &format!("0100 {KEY} {KEY} {START} {KEY}")), format!(", line 5: 5 words, and {expected}")),
        (with_line(2, &format!("100 {KEY} {KEY} {START}")), ", line 2, PID: hex digits: 3, expected: 4".to_string()),
        (with_line(2, &format!("{KEY} {KEY} {KEY} {START}")), ", line 2, PID: hex digits: 64, expected: 4".to_string()),
        (
            with_line(6, &format!("0103 {} {KEY} {START}", &KEY[1..])),
            ", line 6, even key: hex digits: 63, expected: 64".to_string(),
        ),
        (with_line(6, &format!("0103 {KEY} {KEY}0a {START}")), ", line 6, odd key: hex digits: 66, expected: 64".to_string()),
        (
            with_line(6, &format!("0103 {KEY} {}Z {START}", &KEY[1..])),
            ", line 6, odd key: digit 64 is not a hex digit".to_string(),
        ),
        (with_line(6, &format!("0103 {KEY} {KEY} {KEY}")), ", line 6, starting block: hex digits: 64, expected: 32".to_string()),
        (with_line(6, &format!("000f {KEY} {KEY} {START}")), format!(", line 6: PID 000f: {wrong}")),
        (with_line(6, &format!("1fff {KEY} {KEY} {START}")), format!(", line 6: PID 1fff: {wrong}")),
        (with_line(6, &format!("2010 {KEY} {KEY} {START}")), format!(", line 6: PID 2010: {wrong}")),
        (with_line(6, &lines[1]), format!(", line 6: PID 0101, as in line 2: {wrong}")),
        (with_line(6, "#"), format!(": 6 of 7 pipes: {wrong}")),
        (String::new(), format!(": 0 of 7 pipes: {wrong}")),
        (format!("{}0200 {KEY} {KEY} {START}\n", list()), format!(", line 10: an eighth pipe: {wrong}")),
        ("# a line\n".repeat(10_000), ": longer than 65536 bytes, and seven lines are expected".to_string()),
    ];
    for (text, message) in cases {
        let pipes = folder.file("pipes.txt", text);
        let told = refused(&format!("scramble --odd --pipes {pipes}"));
        assert_eq!(told, (format!("{pipes}{message}"), 1));
    }
    let pipes = folder.file("pipes.txt", [b"0100 \xff\xfe ", KEY.as_bytes(), b" 00"].concat());
    assert_eq!(
        refused(&format!("descramble --pipes {pipes}")).0,
        format!("{pipes}, line 1, even key: digit 1 is not a hex digit")
    );
    let (folder_itself, none) = (folder.path(""), folder.path("none"));
    assert_eq!(refused(&format!("descramble --pipes {folder_itself}")).1, 1);
    assert!(refused(&format!("descramble --pipes {none}")).0.starts_with(&format!("{none}: No such file")));
}

/// Capital letters, blanks, ends of lines of other systems, and a word on a line are taken.
#[test]
fn the_file_of_pipes_may_come_through_standard_input() {
    let folder = Folder::new("standard-list");
    let [from, to] = ["clear.ts", "scrambled.ts"].map(|name| folder.path(name));
    folder.file("clear.ts", example());
    let text = list().to_uppercase().replace(' ', " \t ").replace('\n', " # a pipe\r\n");
    let words = ["scramble", "--even", "--pipes", "-", &from, &to].map(Into::into);
    assert_eq!(run(&words, &mut text.as_bytes(), &mut Vec::new(), &mut Vec::new()), Ok(()));
    let scrambled = super::streamed(&format!("scramble --even --pipes {}", folder.file("pipes.txt", list())), &example()).0;
    assert_eq!(fs::read(to).unwrap(), scrambled);
}

/// By its own name, by another and through a link; and a wrong call empties no file.
#[test]
fn what_is_read_is_not_written_to() {
    let folder = Folder::new("same");
    let (pipes, clear) = (folder.file("pipes.txt", list()), folder.file("clear.ts", example()));
    let [hard, soft] = ["hard.ts", "soft.txt"].map(|name| folder.path(name));
    fs::hard_link(&clear, &hard).unwrap();
    std::os::unix::fs::symlink(&pipes, &soft).unwrap();
    let cases = [
        (&clear, &clear, &clear),
        (&clear, &hard, &clear),
        (&hard, &clear, &hard),
        (&clear, &pipes, &pipes),
        (&clear, &soft, &pipes),
    ];
    for (from, to, read) in cases {
        let told = refused(&format!("scramble --even --pipes {pipes} {from} {to}"));
        assert_eq!(told, (format!("{to}: it is written to, and is read as {read} too"), 1));
    }
    let other = folder.file("other.ts", b"kept");
    for line in ["scramble --even", "scramble --even --pipes none", &format!("descramble --odd --pipes {pipes}")] {
        refused(&format!("{line} {clear} {other}"));
    }
    for from in ["none", &folder.path("")] {
        refused(&format!("scramble --even --pipes {pipes} {from} {other}"));
    }
    refused(&format!("scramble --even --pipes {pipes} {clear} {}", folder.path("none/other.ts")));
    assert_eq!([&pipes, &clear, &other].map(|file| fs::read(file).unwrap()), [list().into_bytes(), example(), b"kept".to_vec()]);
}

/// Names may be any bytes, and a terminal is shown none that it would obey.
#[test]
fn files_have_any_names() {
    let folder = Folder::new("names");
    let named = |name: &[u8]| [folder.path("").as_bytes(), name].concat();
    let [pipes, from, to, none] = [&b"\xff.txt"[..], b"\xfe\x1b.ts", b"\xfd.ts", b"\xfc\x1b[2J.ts"].map(named);
    fs::write(OsStr::from_bytes(&pipes), list()).unwrap();
    fs::write(OsStr::from_bytes(&from), example()).unwrap();
    let typed = |words: &[&[u8]]| {
        let words: Vec<_> = words.iter().map(|word| OsStringExt::from_vec(word.to_vec())).collect();
        run(&words, &mut &b""[..], &mut Vec::new(), &mut Vec::new())
    };
    assert_eq!(typed(&[b"scramble", b"--odd", b"--pipes", &pipes, &from, &to]), Ok(()));
    assert_eq!(fs::metadata(OsStr::from_bytes(&to)).unwrap().len(), 4 * 188);
    let fault = typed(&[b"descramble", b"--pipes", &pipes, &none]).unwrap_err();
    assert!(fault.message.contains("/\u{fffd}\\u{1b}[2J.ts: No such file"), "{}", fault.message);
    assert_eq!(typed(&[b"encrypt", b"\xff"]).unwrap_err().message, "argument 1: not in UTF-8");
    assert_eq!(typed(&[b"mask", b"--offset", b"\xff"]).unwrap_err().message, "option --offset: not in UTF-8");
    assert_eq!(typed(&[b"\xff"]).unwrap_err().message, "no command \u{fffd}; slipgrease --help lists them");
}
