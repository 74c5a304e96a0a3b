//! Why a command did not end with 0: what was wrong, where, and what was expected, and the status that the tool ends with.

use slipgrease::Refusal;
use std::fmt::Display;
use std::io::{self, ErrorKind};

/// A message for standard error and the tool's status. Where that is 0 or 3, the command has ended without a fault, and says
/// nothing.
#[derive(Debug, PartialEq)]
pub struct Fault {
    pub message: String,
    pub status: i32,
}

impl Fault {
    /// What never reached the library: words, digits and files.
    pub fn caller(message: impl Into<String>) -> Fault {
        Fault { message: message.into(), status: 1 }
    }

    /// What was found in data of the right shape.
    pub fn data(message: impl Into<String>) -> Fault {
        Fault { message: message.into(), status: 2 }
    }

    /// Nothing is wrong: the command is done, and the answer, which it has printed, is no.
    pub fn no() -> Fault {
        Fault { message: String::new(), status: 3 }
    }

    /// Whether there is anything to be told.
    pub fn is_told(&self) -> bool {
        self.status == 1 || self.status == 2
    }

    /// A refusal of the library. Of a schedule, one block or one number it is said what it should be; of all else, in the library's
    /// own words, what was wrong.
    pub fn refused(refusal: Refusal, seen: &str) -> Fault {
        let said = match refusal {
            Refusal::ScheduleLength => "a schedule is 176, 208 or 240 bytes",
            Refusal::InputLength => "a block is 16 bytes",
            Refusal::OffsetRange => "an offset is 0 to 15",
            Refusal::OffsetPerByte => "one is expected, or sixteen with commas between them",
            Refusal::StepWrong => "a step is 1, or 4 to 15",
            _ => refusal.meaning(),
        };
        Fault::refused_as(refusal, seen, said)
    }

    /// The same in other words. The library sorts it.
    pub fn refused_as(refusal: Refusal, seen: &str, said: &str) -> Fault {
        let message = format!("{seen}: {said} (reply {}, {})", refusal.number(), refusal.name());
        match refusal.fault() {
            Some(slipgrease::Fault::Data) => Fault::data(message),
            _ => Fault::caller(message),
        }
    }

    /// What could not be read or written, and where. Whoever reads what a command writes may go before its end, as `head` does
    /// after ten lines; that is no fault.
    pub fn at(place: impl Display, error: io::Error) -> Fault {
        let status = if error.kind() == ErrorKind::BrokenPipe { 0 } else { 1 };
        Fault { message: format!("{place}: {error}"), status }
    }
}

/// Commands print to standard output, and to what else they write or read they give its name.
impl From<io::Error> for Fault {
    fn from(error: io::Error) -> Fault {
        Fault::at("standard output", error)
    }
}
