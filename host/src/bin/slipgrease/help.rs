//! What `--help` says. Each example is run by a test, and what stands under it is what it prints.

mod commands;
mod record;

use commands::HELPS;

/// A command, how it is called, what it does, and an example. Where an example ends with three dots, more is printed.
struct Help {
    name: &'static str,
    usage: &'static str,
    summary: &'static str,
    text: &'static str,
    example: &'static str,
}

const STATUS: &str = "\
Bytes are hex digits, two for each. An argument that is missing or is - is read from standard input, word by word and to its end;
- is standard input or output too where a file is named. An option and its value may be joined by =, and after -- nothing is taken
as an option.

A key is 16, 24 or 32 bytes, and 32 where it wraps others or scrambles packets. Arguments are seen by others (ps, the shell's
history): so give a key by --key-file FILE, or as - on standard input.

The status is 0 where a command is done, 1 for a caller fault or a failure to read or write, 2 for a data fault, and 3 where it is
done and the answer is no; a refusal is told with the library's reply number.
";

/// All commands, a line for each.
pub fn all() -> String {
    let lines: Vec<String> = HELPS.iter().map(|help| format!("  {:<12}{}\n", help.name, help.summary)).collect();
    format!(
        "slipgrease COMMAND ..: AES block by block, plain and masked, key wrap and packets, by a proved library\n\n{}\n\
         slipgrease COMMAND --help says more, with an example; slipgrease --version names the version.\n\n{STATUS}",
        lines.concat()
    )
}

/// One command.
pub fn of(name: &str) -> String {
    let help = named(name);
    let example: Vec<String> = help.example.lines().map(|line| format!("    {line}\n")).collect();
    format!("slipgrease {}\n\n{}\n\n{STATUS}\n{}", help.usage, help.text, example.concat())
}

/// The options of a command, which its help names.
pub fn options(name: &str) -> Vec<&'static str> {
    let Help { usage, text, .. } = named(name);
    let words = |part: &'static str| part.split(|c: char| !c.is_ascii_alphanumeric() && c != '-');
    let mut options = vec!["--help"];
    for word in words(usage).chain(words(text)).filter(|word| word.len() > 2 && word.starts_with("--")) {
        if !options.contains(&word) {
            options.push(word);
        }
    }
    options
}

/// Those of them that take a value, each with what the help calls that, as FILE.
pub fn values(name: &str) -> Vec<(&'static str, &'static str)> {
    let Help { usage, text, .. } = named(name);
    let pieces: Vec<&str> = usage.split_whitespace().chain(text.split_whitespace()).collect();
    let value = |option: &str| {
        let behind = pieces.windows(2).filter(|pair| unbracketed(pair[0]) == option).map(|pair| pair[1]);
        behind.map(|word| word.trim_end_matches(|c: char| c.is_ascii_punctuation())).find(|word| is_name(word))
    };
    options(name).into_iter().filter_map(|option| Some((option, value(option)?))).collect()
}

/// The words that are typed as they stand in the usage of a command, as read and write.
pub fn literals(name: &str) -> Vec<&'static str> {
    let is_literal = |word: &&str| *word != name && word.bytes().all(|byte| byte.is_ascii_lowercase());
    named(name).usage.split_whitespace().filter(is_literal).collect()
}

/// Whether its arguments are files.
pub fn takes_files(name: &str) -> bool {
    let words: Vec<&str> = named(name).usage.split_whitespace().collect();
    let is_file = |word: &str| ["FILE", "IN", "OUT"].contains(&unbracketed(word).trim_end_matches(']'));
    words.windows(2).any(|pair| is_file(pair[1]) && !options(name).contains(&unbracketed(pair[0])))
}

/// A word without the brackets in front of it. One that is an option by itself then has a value behind it, and [--json] has none.
fn unbracketed(word: &str) -> &str {
    word.trim_start_matches(['[', '('])
}

/// Whether a word stands for something else, as FILE does.
fn is_name(word: &str) -> bool {
    !word.is_empty() && word.bytes().all(|byte| byte.is_ascii_uppercase())
}

fn named(name: &str) -> &'static Help {
    HELPS.iter().find(|help| help.name == name).expect("every command has its help")
}
