//! What was given or counted, as a message can say it.

use std::ffi::OsStr;

/// Any bytes, with what a terminal would obey written out. An empty word is to be seen too.
pub fn shown(word: impl AsRef<OsStr>) -> String {
    match word.as_ref().is_empty() {
        true => "''".to_string(),
        false => word.as_ref().to_string_lossy().chars().map(written).collect(),
    }
}

fn written(c: char) -> String {
    if c.is_control() {
        c.escape_default().to_string()
    } else {
        c.to_string()
    }
}

/// The same of a word that stands where another was expected. It may be a key, so of a long one the beginning alone is shown, and
/// of a number its length.
pub fn brief(word: impl AsRef<OsStr>) -> String {
    let text = word.as_ref().to_string_lossy();
    let (length, beginning) = (text.chars().count(), text.chars().take(4).map(written).collect::<String>());
    match length {
        0..=12 => shown(word),
        _ if text.bytes().all(|byte| byte.is_ascii_digit()) => format!("{beginning}.. ({length} digits)"),
        _ => format!("{beginning}.."),
    }
}

/// So many of something: 1 byte, 2 bytes.
pub fn count(number: usize, what: &str) -> String {
    format!("{number} {what}{}", if number == 1 { "" } else { "s" })
}

/// One, one and another, or more with commas between them.
pub fn listed(these: &[String]) -> String {
    match these {
        [] => String::new(),
        [one] => one.clone(),
        [others @ .., last] => format!("{} and {last}", others.join(", ")),
    }
}
