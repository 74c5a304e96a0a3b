//! The file of pipes. Most of its words are keys, so no message repeats one.

use super::ends::End;
use crate::fault::Fault;
use crate::hex;
use crate::shown::count;
use crate::words::words_of;
use slipgrease::{Pipes, Schedule};
use std::io::{BufRead, Read};

/// Seven lines have some 1,200 bytes; a file of more than this is another one.
const LIMIT: usize = 1 << 16;

/// The list of the pipes that the lines of a file have: PID, even key, odd key and starting block. The library judges the list.
pub fn read(end: &End, standard: &mut dyn BufRead) -> Result<Pipes, Fault> {
    let name = end.name();
    let mut bytes = Vec::new();
    end.reader(standard).take(LIMIT as u64 + 1).read_to_end(&mut bytes).map_err(|error| Fault::at(name, error))?;
    if bytes.len() > LIMIT {
        return Err(Fault::caller(format!("{name}: longer than {LIMIT} bytes, and seven lines are expected")));
    }
    let (mut list, mut lines) = (Vec::new(), Vec::new());
    for (line, text) in (1..).zip(String::from_utf8_lossy(&bytes).lines()) {
        let words = words_of(text);
        if words.is_empty() {
            continue;
        }
        let (pid, pipe) = pipe(&words).map_err(|wrong| Fault::caller(format!("{name}, line {line}{wrong}")))?;
        list.extend(pipe);
        lines.push((line, pid));
    }
    Pipes::try_from(&list[..]).map_err(|refusal| Fault::refused(refusal, &format!("{name}{}", wrong_line(&lines))))
}

/// The PID and all bytes of one pipe, or what is wrong with its line.
fn pipe(words: &[&str]) -> Result<(u16, Vec<u8>), String> {
    let (pid, even, odd, start) = match words[..] {
        [pid, even, odd, start] => {
            (of("PID", pid)?, of::<32>("even key", even)?, of::<32>("odd key", odd)?, of::<16>("starting block", start)?)
        }
        _ => {
            let count = count(words.len(), "word");
            return Err(format!(": {count}, and PID, even key, odd key and starting block are expected"));
        }
    };
    let [even, odd] = [even, odd].map(|key| Schedule::expand(&key));
    Ok((u16::from_be_bytes(pid), [&pid[..], even.as_bytes(), odd.as_bytes(), &start].concat()))
}

fn of<const N: usize>(what: &str, word: &str) -> Result<[u8; N], String> {
    hex::unrepeated(word).map_err(|wrong| format!(", {what}: {wrong}"))
}

/// Which line the library's refusal of the list is about, and what is to be seen there.
fn wrong_line(lines: &[(usize, u16)]) -> String {
    if lines.len() < 7 {
        return format!(": {} of 7 pipes", lines.len());
    }
    if let Some((line, _)) = lines.get(7) {
        return format!(", line {line}: an eighth pipe");
    }
    for (k, (line, pid)) in lines.iter().enumerate() {
        if let Some((earlier, _)) = lines[..k].iter().find(|earlier| earlier.1 == *pid) {
            return format!(", line {line}: PID {pid:04x}, as in line {earlier}");
        }
        if !(0x0010..=0x1ffe).contains(pid) {
            return format!(", line {line}: PID {pid:04x}");
        }
    }
    String::new()
}
