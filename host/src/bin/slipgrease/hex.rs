//! Bytes as hex digits.

use crate::shown::count;

/// Two digits a byte, in small letters.
pub fn digits(bytes: &[u8]) -> String {
    bytes.iter().map(|byte| format!("{byte:02x}")).collect()
}

/// The bytes of a word, or what is wrong with it.
pub fn bytes(word: &str) -> Result<Vec<u8>, String> {
    if let Some((index, other)) = word.chars().enumerate().find(|(_, c)| !c.is_ascii_hexdigit()) {
        return Err(format!("'{}' at digit {} is not a hex digit", other.escape_debug(), index + 1));
    }
    if word.len() % 2 == 1 {
        return Err(format!("{}, and a byte is two", count(word.len(), "hex digit")));
    }
    let value = |i: usize| u8::from_str_radix(&word[i..i + 2], 16).expect("two hex digits");
    Ok((0..word.len()).step_by(2).map(value).collect())
}

/// So many bytes of a word, or what is wrong with it, without repeating anything of the word.
pub fn unrepeated<const N: usize>(word: &str) -> Result<[u8; N], String> {
    if let Some(index) = word.chars().position(|c| !c.is_ascii_hexdigit()) {
        return Err(format!("digit {} is not a hex digit", index + 1));
    }
    let of_length = bytes(word).ok().and_then(|bytes| bytes.try_into().ok());
    of_length.ok_or_else(|| format!("hex digits: {}, expected: {}", word.len(), 2 * N))
}
