//! What is asked of the tool itself: its help, its version, and what a shell completes.

use super::{help, printed, refused, typed, BLOCK, CIPHERTEXT, COMMANDS, KEY};
use std::collections::BTreeSet;

#[test]
fn version_and_help_are_there() {
    assert_eq!(printed("--version"), format!("slipgrease {}\n", env!("CARGO_PKG_VERSION")));
    for line in ["", "help", "help help", "--help help", "--", "-- help"] {
        assert_eq!(printed(line), printed("--help"), "{line}");
    }
    for line in ["help mask", "--help mask", "mask --help", "mask 00 -h", "-- mask --help", "-- help mask"] {
        assert_eq!(printed(line), help::of("mask"), "{line}");
    }
    let cases = [
        ("help melt", "no command melt; slipgrease --help lists them"),
        ("help mask unmask", "help: 2 words, and one command is expected"),
        ("--version mask", "--version: 1 word, and none is expected"),
        ("--version --version mask", "--version: 2 words, and none is expected"),
        ("-- --version", "no command --version; slipgrease --help lists them"),
    ];
    for (line, message) in cases {
        assert_eq!(refused(line), (message.to_string(), 1));
    }
    assert_eq!(printed(&format!("-- mask --offset 3 {KEY} -- {BLOCK}")).trim(), CIPHERTEXT);
}

#[test]
fn no_line_of_the_help_is_longer_than_132_columns() {
    for said in COMMANDS.iter().map(|(name, _)| help::of(name)).chain([help::all()]) {
        for line in said.lines() {
            assert!(line.chars().count() <= 132, "{line}");
        }
    }
}

/// The options that a command's help names are those that it takes, of all that there are. Those with a value have it there too.
#[test]
fn help_names_the_options_that_a_command_takes() {
    let named = |name: &str| help::options(name).into_iter().filter(|option| *option != "--help").collect::<BTreeSet<_>>();
    let all: BTreeSet<&str> = COMMANDS.iter().flat_map(|(name, _)| named(name)).collect();
    for (name, _) in COMMANDS {
        let needed = |option: &str| match (*name, option) {
            ("scramble", "--even") => "--odd --pipes=none",
            ("scramble", _) => "--even --pipes=none",
            ("descramble", _) => "--pipes=none",
            _ => "",
        };
        let told = |option: &str| typed(&format!("{name} {} {option}=none", needed(option)), "").1.unwrap().0;
        let is_taken = |option: &&str| !told(option).starts_with(&format!("no option {option} here"));
        assert_eq!(all.iter().copied().filter(is_taken).collect::<BTreeSet<_>>(), named(name), "{name}");
        let has_value = |option: &&str| !told(option).starts_with(&format!("{option} takes no value"));
        let values = help::values(name).into_iter().map(|(option, _)| option);
        assert_eq!(named(name).into_iter().filter(has_value).collect::<BTreeSet<_>>(), values.collect(), "{name}");
    }
}

/// What bash makes of it is tried where the tool is started.
#[test]
fn a_shell_has_the_words_of_every_command() {
    let said = printed("completion bash");
    for (name, _) in COMMANDS {
        let options = help::options(name).join(" ");
        assert_eq!(said.matches(&format!("    *:{name}) options='{options}'")).count(), 1, "{name}");
    }
    let files = |name: &str| {
        let named = help::values(name).into_iter().filter(|(_, value)| *value == "FILE");
        named.map(|(option, _)| option).collect::<Vec<_>>()
    };
    assert_eq!(files("record"), ["--against", "--svg", "--key-file"]);
    assert_eq!((files("scramble"), files("vectors"), files("expand")), (vec!["--pipes"], vec![], vec!["--key-file"]));
    assert_eq!(files("report"), ["--svg"]);
    assert_eq!((help::literals("sheet"), help::literals("completion")), (vec!["read", "write"], vec!["bash"]));
    let takes_files = COMMANDS.iter().map(|(name, _)| *name).filter(|name| help::takes_files(name));
    assert_eq!(takes_files.collect::<Vec<_>>(), ["scramble", "descramble", "vectors"]);
    assert_eq!(refused("completion fish").0, "completion fish: bash is expected");
}
