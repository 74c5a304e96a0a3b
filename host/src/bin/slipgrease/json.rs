//! Strings of JSON, of which all else that --json prints is made without care.

use std::fmt::Write;

/// A text between quotes, with what may not stand there written out.
pub fn string(text: &str) -> String {
    let mut string = String::from("\"");
    for c in text.chars() {
        match c {
            '"' | '\\' => string.extend(['\\', c]),
            c if c < ' ' => {
                let _ = write!(string, "\\u{:04x}", u32::from(c));
            }
            c => string.push(c),
        }
    }
    string + "\""
}
