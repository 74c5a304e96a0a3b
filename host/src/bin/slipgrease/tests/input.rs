//! Standard input, which has words in turn, or is all for one thing.

use super::{refused, typed, Folder, BLOCK, CIPHERTEXT, KEY, PUBLISHED};

/// Each case by itself would do.
#[test]
fn what_is_all_for_one_thing_is_for_no_other() {
    let folder = Folder::new("held");
    let key = folder.file("key.txt", KEY);
    let cases = [
        ("encrypt --key-file -".to_string(), "the key and the block"),
        ("encrypt --schedule -".to_string(), "--schedule and the block"),
        ("mask --offset 3 --masks - --key-file -".to_string(), "--masks and the key"),
        (format!("mask --offset 3 --masks - - {BLOCK}"), "--masks and the key"),
        ("blocks --offsets 3 --key-file -".to_string(), "the key and the blocks"),
        ("wrap --key-file -".to_string(), "the key and the key data"),
        ("unwrap --schedule - --offset 3".to_string(), "--schedule and the wrapped key"),
        (format!("record --against - --key-file - {BLOCK}"), "the dump and the key"),
        (format!("record --against - --key-file {key}"), "the dump and the block"),
        (format!("record --against - --offset - {KEY} {BLOCK}"), "the dump and --offset"),
        (format!("record --key2 - --key-file - {BLOCK}"), "--key2 and the key"),
        (format!("record --key2 - --block2 - {KEY} {BLOCK}"), "--key2 and --block2"),
        (format!("record --masks - --masks2 - --offset 3 {KEY} {BLOCK}"), "--masks and --masks2"),
        ("descramble --pipes -".to_string(), "the file of pipes and the stream"),
    ];
    for (line, both) in cases {
        let told = (String::new(), Some((format!("standard input cannot be both {both}"), 1)));
        assert_eq!(typed(&line, KEY), told, "{line}");
        assert_eq!(typed(&line, &format!("{KEY}\n{BLOCK}\n")), told, "{line}");
    }
}

/// The rest of standard input is for one thing where words in front of it were for others.
#[test]
fn words_come_before_what_takes_the_rest() {
    let line = format!("mask --offset - --masks - {KEY} {BLOCK}");
    assert_eq!(typed(&line, &format!("3\n{PUBLISHED}\n")), (format!("{CIPHERTEXT}\n"), None));
    assert_eq!(
        refused("encrypt").0,
        "the key is missing: it is expected as an argument or on standard input; slipgrease encrypt --help says more"
    );
    let missing = [
        ("fitness", "the masks are missing: they are expected"),
        ("sheet", "the word read or write is missing: it is expected"),
        ("sheet read", "the sheet is missing: it is expected"),
        ("report", "the sheet is missing: it is expected"),
        ("completion", "the shell is missing: it is expected"),
        ("convert 00", "the offset is missing: it is expected"),
    ];
    for (line, message) in missing {
        let (command, _) = line.split_once(' ').unwrap_or((line, ""));
        let more = format!("as an argument or on standard input; slipgrease {command} --help says more");
        assert_eq!(refused(line), (format!("{message} {more}"), 1));
    }
}
