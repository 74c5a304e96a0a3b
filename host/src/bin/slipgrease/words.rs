//! What a command is given: options, arguments, and where arguments are missing or are a dash, the words of standard input.

mod numbers;

use crate::fault::Fault;
use crate::given::text;
pub use crate::given::{given, number, Given, GivenOffsets, Number};
use crate::input::Input;
use crate::opened::Opened;
use crate::shown::brief;
use std::ffi::{OsStr, OsString};
use std::io::BufRead;
use std::os::unix::ffi::OsStrExt;

/// What became of an option that masked runs once had.
const FORM_RETIRED: &str =
    "--form: form 1 has retired, and every block comes out in the standard form; slipgrease convert makes the standard block \
     of one that was stored in form 1";

pub struct Words<'a> {
    command: &'a str,
    /// The words in front of a --, among which options are looked for.
    left: Vec<OsString>,
    /// Those behind it, which are arguments whatever they begin with.
    behind: Vec<OsString>,
    taken: usize,
    input: Input<'a>,
    /// The files that were opened.
    files: Vec<Opened>,
}

impl<'a> Words<'a> {
    pub fn new(command: &'a str, words: &[OsString], input: &'a mut dyn BufRead) -> Words<'a> {
        let mut parts = words.splitn(2, |word| word == "--").map(<[_]>::to_vec);
        let [left, behind] = [(); 2].map(|()| parts.next().unwrap_or_default());
        Words { command, left, behind, taken: 0, input: Input::standard(input), files: Vec::new() }
    }

    fn usage(&self, message: String) -> Fault {
        Fault::caller(format!("{message}; slipgrease {} --help says more", self.command))
    }

    fn missing(&self, what: &str) -> Fault {
        let (is, it_is) = if what == "masks" { ("are", "they are") } else { ("is", "it is") };
        self.usage(format!("the {what} {is} missing: {it_is} expected as an argument or on standard input"))
    }

    /// Where an option stands for the first time, and its value if that is joined to it by an =.
    fn found(&self, name: &str) -> Option<(usize, Option<OsString>)> {
        self.left.iter().enumerate().find_map(|(place, word)| {
            let rest = word.as_bytes().strip_prefix(b"--")?.strip_prefix(name.as_bytes())?;
            match rest.split_first() {
                None => Some((place, None)),
                Some((b'=', value)) => Some((place, Some(OsStr::from_bytes(value).to_os_string()))),
                Some(_) => None,
            }
        })
    }

    /// No second one may be left where one was taken.
    fn given_once(&self, name: &str) -> Result<(), Fault> {
        match self.found(name) {
            Some(_) => Err(self.usage(format!("--{name} is given twice"))),
            None => Ok(()),
        }
    }

    /// What stands behind an option that names a file, whose name may be any bytes, if the option is there.
    pub fn file_of(&mut self, name: &'static str) -> Result<Option<OsString>, Fault> {
        match self.value_of(name)? {
            Some(value) if value.is_empty() => Err(self.usage(format!("--{name} '': the name of a file is expected, or -"))),
            value => Ok(value),
        }
    }

    fn value_of(&mut self, name: &'static str) -> Result<Option<OsString>, Fault> {
        let (place, joined) = match self.found(name) {
            Some(found) => found,
            None => return Ok(None),
        };
        self.left.remove(place);
        let value = match joined {
            Some(value) => value,
            None if place == self.left.len() => {
                return Err(self.usage(format!("--{name} is the last word, and a value is expected behind it")))
            }
            None => self.left.remove(place),
        };
        self.given_once(name)?;
        Ok(Some(value))
    }

    fn text_of(&mut self, name: &'static str) -> Result<Option<String>, Fault> {
        self.value_of(name)?.map(|word| text(word, &format!("option --{name}"))).transpose()
    }

    /// The word behind any other option; behind it a dash is the next word of standard input.
    pub fn option(&mut self, name: &'static str) -> Result<Option<String>, Fault> {
        match self.text_of(name)? {
            Some(word) if word == "-" => match self.input.word_for(&format!("--{name}"))? {
                Some((word, _)) => Ok(Some(word)),
                None => Err(self.usage(format!("--{name} is missing: it is expected on standard input"))),
            },
            other => Ok(other),
        }
    }

    /// Whether an option is there that has no word behind it.
    pub fn flag(&mut self, name: &'static str) -> Result<bool, Fault> {
        match self.found(name) {
            None => Ok(false),
            Some((_, Some(_))) => Err(self.usage(format!("--{name} takes no value"))),
            Some((place, None)) => {
                self.left.remove(place);
                self.given_once(name)?;
                Ok(true)
            }
        }
    }

    /// The bytes behind an option; behind it a dash is all of standard input.
    pub fn bytes_of(&mut self, option: &'static str) -> Result<Option<Given>, Fault> {
        match self.text_of(option)? {
            None => Ok(None),
            Some(word) if word == "-" => self.all_of_input(option, &format!("--{option}")).map(Some),
            Some(word) => given(option, format!("option --{option}"), &word).map(Some),
        }
    }

    /// The bytes in the file behind an option.
    pub fn bytes_in(&mut self, option: &'static str, what: &'static str) -> Result<Option<Given>, Fault> {
        match self.file_of(option)? {
            None => Ok(None),
            Some(file) if file == "-" => self.all_of_input(what, &format!("the {what}")).map(Some),
            Some(file) => {
                let mut file = self.open(&file)?;
                let text = file.all()?;
                given(what, file.name, &text).map(Some)
            }
        }
    }

    /// Opens a file to be read.
    pub fn open(&mut self, path: &OsStr) -> Result<Input<'static>, Fault> {
        let (input, opened) = Input::file(path)?;
        self.files.push(opened);
        Ok(input)
    }

    /// All that is read, standard input too if anything there was asked for.
    pub fn files_read(&self) -> Result<Vec<Opened>, Fault> {
        let mut files = self.files.clone();
        if self.input.is_used() {
            files.push(Opened::standard_input()?);
        }
        Ok(files)
    }

    fn all_of_input(&mut self, what: &'static str, called: &str) -> Result<Given, Fault> {
        self.input.hold(called)?;
        let text = self.input.all()?;
        given(what, self.input.name.clone(), &text)
    }

    /// The next argument, if one is left.
    pub fn argument(&mut self) -> Result<Option<OsString>, Fault> {
        if let Some(option) = self.left.iter().find(|word| word.as_bytes().starts_with(b"-") && *word != "-") {
            let name = OsStr::from_bytes(option.as_bytes().split(|byte| *byte == b'=').next().unwrap_or_default());
            return Err(match name == "--form" {
                true => Fault::caller(FORM_RETIRED),
                false => self.usage(format!("no option {} here", brief(name))),
            });
        }
        let from = if self.left.is_empty() { &mut self.behind } else { &mut self.left };
        if from.is_empty() {
            return Ok(None);
        }
        self.taken += 1;
        Ok(Some(from.remove(0)))
    }

    /// The next argument, or the next word of standard input for a dash and where there is no argument left.
    pub fn word(&mut self, what: &str) -> Result<(String, String), Fault> {
        match self.argument()? {
            Some(word) if word != "-" => {
                let place = format!("argument {}", self.taken);
                Ok((text(word, &place)?, place))
            }
            _ => self.input.word_for(&format!("the {what}"))?.ok_or_else(|| self.missing(what)),
        }
    }

    /// The next bytes, of an argument or of standard input.
    pub fn bytes(&mut self, what: &'static str) -> Result<Given, Fault> {
        let (word, place) = self.word(what)?;
        given(what, place, &word)
    }

    /// The same, or where standard input alone is given and does not begin with digits, its own bytes, as they are.
    pub fn digits_or_own_bytes(&mut self, what: &'static str) -> Result<Given, Fault> {
        if !self.input_alone()? || self.input.may_be_digits()? {
            return self.bytes(what);
        }
        self.input.hold(&format!("the {what}"))?;
        Ok(Given { what, place: self.input.name.clone(), bytes: self.input.bytes()? })
    }

    /// Standard input, for a command that takes other things than words from it.
    pub fn input(&mut self) -> &mut Input<'a> {
        &mut self.input
    }

    /// Whether standard input is meant for all: there is no argument, or a dash alone, which is taken.
    pub fn input_alone(&mut self) -> Result<bool, Fault> {
        let arguments = || self.left.iter().chain(&self.behind);
        let alone = arguments().count() <= 1 && arguments().all(|word| word == "-");
        if alone {
            self.argument()?;
        }
        Ok(alone)
    }

    /// The bytes of all arguments that are left, or of all words of standard input where there is none, or a dash alone.
    pub fn all_bytes(&mut self, what: &'static str) -> Result<Given, Fault> {
        if self.input_alone()? {
            return self.all_of_input(what, &format!("the {what}"));
        }
        let (mut text, mut place) = self.word(what)?;
        while !self.left.is_empty() || !self.behind.is_empty() {
            text += &self.word(what)?.0;
            place = "the last arguments".to_string();
        }
        given(what, place, &text)
    }

    /// The same, and at least one byte.
    pub fn some_bytes(&mut self, what: &'static str) -> Result<Given, Fault> {
        let given = self.all_bytes(what)?;
        match given.bytes.is_empty() {
            true => Err(self.missing(what)),
            false => Ok(given),
        }
    }

    /// All that was given must have been used, on standard input too if anything was taken from there.
    pub fn end(&mut self) -> Result<(), Fault> {
        let place = match self.argument()? {
            Some(_) => Some(format!("argument {}", self.taken)),
            None => self.input.surplus()?.map(|(_, place)| place),
        };
        match place {
            Some(place) => Err(self.usage(format!("{place} is one word too many"))),
            None => Ok(()),
        }
    }
}

/// The words of a line. What follows a # is left out.
pub fn words_of(line: &str) -> Vec<&str> {
    line.split('#').next().unwrap_or("").split_whitespace().collect()
}
