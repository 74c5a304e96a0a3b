//! The numbers behind options.

use super::{number, GivenOffsets, Number, Words};
use crate::fault::Fault;
use crate::shown::brief;
use slipgrease::Step;

impl Words<'_> {
    /// The number behind an option.
    pub fn number_of(&mut self, option: &'static str) -> Result<Option<Number>, Fault> {
        let expected = match option.starts_with("offset") {
            true => "a decimal number from 0 to 15 is expected",
            false => "a decimal number is expected, 1 or 4 to 15",
        };
        match self.option(option)? {
            None => Ok(None),
            Some(word) => self.number(option, &word, format!("--{option}"), expected).map(Some),
        }
    }

    /// The numbers behind an option, one for each block, with commas between them.
    pub fn numbers_of(&mut self, option: &'static str) -> Result<Option<Vec<Number>>, Fault> {
        let expected = "decimal numbers from 0 to 15 are expected, with commas between them";
        match self.option(option)? {
            None => Ok(None),
            Some(none) if none.is_empty() => Ok(Some(Vec::new())),
            Some(given) => self.listed(option, &given, |index| format!("block {}", index + 1), expected).map(Some),
        }
    }

    /// The offsets of a run behind an option: one, or one for each byte, with commas between them.
    pub fn offsets_of(&mut self, option: &'static str) -> Result<Option<GivenOffsets>, Fault> {
        match self.option(option)? {
            None => Ok(None),
            Some(given) => {
                let expected = match given.contains(',') {
                    true => "sixteen decimal numbers from 0 to 15 are expected, with commas between them",
                    false => "a decimal number from 0 to 15 is expected, or sixteen with commas between them",
                };
                let numbers = self.listed(option, &given, |byte| format!("byte {byte}"), expected)?;
                Ok(Some(GivenOffsets { what: option, word: given, numbers }))
            }
        }
    }

    /// Numbers with commas between them. Of several each is told by what it is for.
    fn listed(
        &self,
        option: &'static str,
        given: &str,
        called: impl Fn(usize) -> String,
        expected: &str,
    ) -> Result<Vec<Number>, Fault> {
        let words: Vec<&str> = given.split(',').collect();
        let numbers = words.iter().enumerate().map(|(index, word)| {
            let place = if words.len() == 1 { String::new() } else { format!(", for {}:", called(index)) };
            self.number(option, word, format!("--{option}{place}"), expected)
        });
        numbers.collect()
    }

    fn number(&self, what: &'static str, word: &str, place: String, expected: &str) -> Result<Number, Fault> {
        match number(word) {
            Some(value) => Ok(Number { what, word: word.to_string(), value }),
            None => Err(self.usage(format!("{place} {}: {expected}", brief(word)))),
        }
    }

    /// The step behind --step, of a command whose runs cannot be refused.
    pub fn taken_step(&mut self) -> Result<Step, Fault> {
        let number = self.number_of("step")?;
        number.map_or(Ok(Step::ONE), |number| Step::new(number.value).map_err(|refusal| number.refused(refusal)))
    }
}
