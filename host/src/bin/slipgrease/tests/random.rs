//! Random bytes, and words that nearly make sense, wherever a command takes any.

use super::{help, offsets::SIXTEEN, report::SHEET, run, stream, vectors, Folder, BLOCK, COMMANDS, KEY, PUBLISHED};
use numbers::Random;
use std::ffi::OsString;
use std::os::unix::ffi::OsStringExt;

#[path = "../../second/random.rs"]
mod numbers;

/// What may be the name of a file that is written is one in the test's own folder.
struct Source<'a> {
    random: Random,
    folder: &'a Folder,
}

impl Source<'_> {
    fn of<'t>(&mut self, these: &[&'t str]) -> &'t str {
        these[self.random.below(these.len())]
    }

    fn bytes(&mut self, longest: usize) -> Vec<u8> {
        let length = self.random.below(longest);
        self.random.bytes(length)
    }

    /// Any bytes that the system takes as an argument or, in a folder, as a name.
    fn word(&mut self) -> Vec<u8> {
        let mut word = self.bytes(40);
        word.retain(|byte| *byte != 0 && *byte != b'/');
        word
    }

    fn path(&mut self) -> Vec<u8> {
        let name = match self.random.below(4) {
            0 => self.word(),
            _ => self.of(&["pipes.txt", "clear.ts", "random", "key.txt", "none", ""]).into(),
        };
        [self.folder.path("").into_bytes(), name].concat()
    }

    /// A text that may be right, with a byte of it changed here and there.
    fn text(&mut self) -> Vec<u8> {
        let mut text = match self.random.below(8) {
            0 => return self.bytes(2000),
            1 => vectors::gfsbox().into_bytes(),
            2 => stream::list().into_bytes(),
            3 => stream::example(),
            4 => format!("{BLOCK} {}\n", self.random.below(18)).repeat(3).into_bytes(),
            _ => (0..self.random.below(5))
                .map(|_| format!("{} ", self.of(&[KEY, BLOCK, "3", "0,15", SIXTEEN, "read"])))
                .collect::<String>()
                .into(),
        };
        for _ in 0..self.random.below(3) {
            if !text.is_empty() {
                let place = self.random.below(text.len());
                text[place] = self.random.byte();
            }
        }
        text
    }

    /// An option and its value, in one word or two.
    fn option(&mut self, name: &str) -> Vec<Vec<u8>> {
        let option = self.of(&help::options(name));
        let value = match option {
            "--help" | "--even" | "--odd" | "--pass" | "--decrypt" | "--json" | "--summary" => match self.random.below(20) {
                0 => return vec![[option.as_bytes(), b"="].concat()],
                _ => return vec![option.into()],
            },
            "--svg" | "--key-file" | "--pipes" | "--against" => self.path(),
            _ => match self.random.below(4) {
                0 => self.word(),
                _ => self.of(&["3", "15", "16", "5", "0,15", SIXTEEN, "-", BLOCK, KEY, PUBLISHED]).into(),
            },
        };
        match self.random.below(2) {
            0 => vec![[option.as_bytes(), b"=", &value].concat()],
            _ => vec![option.into(), value],
        }
    }

    fn argument(&mut self, name: &str) -> Vec<u8> {
        match self.random.below(8) {
            0 => b"-".to_vec(),
            1 => self.path(),
            _ if name.ends_with("scramble") => self.path(),
            2 => self.word(),
            _ => self.of(&[KEY, BLOCK, PUBLISHED, SHEET, "read", "write", "bash", "3", "--", "", "open"]).into(),
        }
    }

    fn command_line(&mut self) -> Vec<OsString> {
        let (name, _) = COMMANDS[self.random.below(COMMANDS.len())];
        let mut words = vec![if self.random.below(50) == 0 { self.word() } else { name.into() }];
        for _ in 0..self.random.below(6) {
            match self.random.below(5) {
                0 | 1 => words.extend(self.option(name)),
                _ => words.push(self.argument(name)),
            }
        }
        words.into_iter().map(OsString::from_vec).collect()
    }
}

#[test]
fn no_bytes_end_it_otherwise_than_with_a_status() {
    let folder = Folder::new("random");
    let mut source = Source { random: Random::new(27), folder: &folder };
    let mut ended = [0; 4];
    for case in 0..6000 {
        if case % 20 == 0 {
            for name in ["pipes.txt", "clear.ts", "random", "key.txt"] {
                let text = source.text();
                folder.file(name, if case % 40 == 0 && name == "pipes.txt" { stream::list().into() } else { text });
            }
        }
        let (words, input) = (source.command_line(), source.text());
        let (mut out, mut notes) = (Vec::new(), Vec::new());
        let status = match run(&words, &mut &input[..], &mut out, &mut notes) {
            Ok(()) => 0,
            Err(fault) => {
                assert!(!fault.message.chars().any(char::is_control), "{words:?}: {:?}", fault.message);
                fault.status
            }
        };
        assert!((0..=3).contains(&status), "{words:?} ended with {status}");
        ended[status as usize] += 1;
    }
    // They come as far as they should.
    assert!(ended.iter().all(|count| *count > 0), "{ended:?}");
}
