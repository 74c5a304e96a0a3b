//! Vectors, one at a time: key, block and ciphertext to a line, or as NIST publishes them, with a name in front of each.

use crate::fault::Fault;
use crate::hex;
use crate::input::Input;
use crate::shown::{brief, count};
use crate::words::words_of;
use slipgrease::{Refusal, Schedule};

/// What makes a vector in NIST's files, and what the three are called where they share a line.
const FIELDS: [&str; 3] = ["KEY", "PLAINTEXT", "CIPHERTEXT"];
const ON_A_LINE: [&str; 3] = ["key", "block", "ciphertext"];

/// How many encryptions lie between plaintext and ciphertext in NIST's Monte Carlo tests (AESAVS, 6.4.1).
const MONTE_CARLO: usize = 1000;

/// One block or more under one key, each with its ciphertext.
pub struct Vector {
    pub line: usize,
    /// The line, and how NIST names the vector.
    pub place: String,
    pub schedule: Schedule,
    pub blocks: Vec<u8>,
    pub ciphertexts: Vec<u8>,
    /// How many encryptions make the ciphertext of a block.
    pub times: usize,
}

pub struct Vectors<'a> {
    input: Input<'a>,
    times: usize,
    /// The section and the COUNT that the next fields stand under.
    section: String,
    count: String,
    /// Where the vector that is being read begins, and what has been read of it.
    line: usize,
    fields: [Option<String>; 3],
}

impl<'a> Vectors<'a> {
    pub fn new(input: Input<'a>) -> Vectors<'a> {
        Vectors { input, times: 1, section: String::new(), count: String::new(), line: 0, fields: Default::default() }
    }

    /// What the vectors are read from.
    pub fn name(&self) -> &str {
        &self.input.name
    }

    /// The next vector, if there is one.
    pub fn read(&mut self) -> Result<Option<Vector>, Fault> {
        while let Some((line, text)) = self.input.line()? {
            if let Some(vector) = self.take(line, &text)? {
                return Ok(Some(vector));
            }
        }
        self.none_begun()?;
        Ok(None)
    }

    fn wrong(&self, line: usize, message: String) -> Fault {
        Fault::caller(format!("{}, line {line}{message}", self.name()))
    }

    /// Takes a line, with which a vector may be whole.
    fn take(&mut self, line: usize, text: &str) -> Result<Option<Vector>, Fault> {
        if text.starts_with('#') && text.split_whitespace().any(|word| word == "MCT") {
            self.times = MONTE_CARLO;
        }
        // An = may stand without blanks beside it.
        match words_of(&text.replacen('=', " = ", 1))[..] {
            [] => Ok(None),
            [section @ ("[ENCRYPT]" | "[DECRYPT]")] => {
                self.none_begun()?;
                self.section = section.to_string();
                Ok(None)
            }
            ["COUNT", "=", count] => {
                self.none_begun()?;
                self.count = brief(count);
                Ok(None)
            }
            [name, "=", value] => self.field(line, name, value),
            [key, block, ciphertext] => {
                self.none_begun()?;
                self.vector(line, format!("line {line}"), ON_A_LINE, [key, block, ciphertext]).map(Some)
            }
            ref words => {
                let count = count(words.len(), "word");
                Err(self.wrong(line, format!(": {count}, and key, block and ciphertext are expected, or a line of NIST's files")))
            }
        }
    }

    /// What has begun must be whole where another begins.
    fn none_begun(&self) -> Result<(), Fault> {
        match self.fields.iter().position(Option::is_none) {
            Some(missing) if self.fields.iter().any(Option::is_some) => {
                Err(self.wrong(self.line, format!(": of the vector that begins here, {} is missing", FIELDS[missing])))
            }
            _ => Ok(()),
        }
    }

    fn field(&mut self, line: usize, name: &str, value: &str) -> Result<Option<Vector>, Fault> {
        let field = FIELDS.iter().position(|its| *its == name).ok_or_else(|| {
            self.wrong(line, format!(": {}, and COUNT, KEY, PLAINTEXT or CIPHERTEXT is expected, as ECB has them", brief(name)))
        })?;
        if self.fields.iter().all(Option::is_none) {
            self.line = line;
        }
        if self.fields[field].replace(value.to_string()).is_some() {
            return Err(self.wrong(line, format!(": a second {name} in one vector")));
        }
        if self.fields.iter().any(Option::is_none) {
            return Ok(None);
        }
        let fields = std::mem::take(&mut self.fields).map(Option::unwrap_or_default);
        let named = [("", &self.section), ("COUNT = ", &self.count)].into_iter().filter(|(_, value)| !value.is_empty());
        let named = named.map(|(name, value)| format!(", {name}{value}")).collect::<String>();
        self.vector(self.line, format!("line {}{named}", self.line), FIELDS, [&fields[0], &fields[1], &fields[2]]).map(Some)
    }

    fn vector(&self, line: usize, place: String, names: [&str; 3], words: [&str; 3]) -> Result<Vector, Fault> {
        let seen = |k: usize| format!("{}, {place}, {}", self.name(), names[k]);
        let bytes = |k: usize| hex::bytes(words[k]).map_err(|wrong| Fault::caller(format!("{}: {wrong}", seen(k))));
        let refused = |k: usize, length, refusal| Fault::refused(refusal, &format!("{}: {}", seen(k), count(length, "byte")));
        let blocks = |k: usize| match bytes(k)? {
            blocks if blocks.is_empty() || blocks.len() % 16 > 0 => Err(refused(k, blocks.len(), Refusal::InputLength)),
            blocks => Ok(blocks),
        };
        let key = bytes(0)?;
        let schedule = Schedule::expand_slice(&key).map_err(|refusal| refused(0, key.len(), refusal))?;
        let (blocks, ciphertexts) = (blocks(1)?, blocks(2)?);
        if blocks.len() != ciphertexts.len() {
            let (found, expected) = (ciphertexts.len(), blocks.len());
            return Err(Fault::caller(format!(
                "{}: {found} bytes, and {expected} are expected, as {} has them",
                seen(2),
                names[1]
            )));
        }
        Ok(Vector { line, place, schedule, blocks, ciphertexts, times: self.times })
    }
}
