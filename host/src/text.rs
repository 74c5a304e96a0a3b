//! Offsets, steps, masks and parities as text: what one prints, the other reads. Ways and faults are only printed.

use crate::masks::{Masks, Offset, Step};
use crate::offsets::Offsets;
use crate::packets::{Parity, Way};
use crate::refusal::Fault;
use std::error::Error;
use std::fmt;
use std::str::FromStr;

/// A text that cannot be read. It says what would have been, and nothing of the text.
///
/// ```
/// use slipgrease::{Offset, ParseError};
///
/// let error: ParseError = "16".parse::<Offset>().unwrap_err();
/// assert_eq!(error.to_string(), "an offset is a number from 0 to 15");
/// ```
#[derive(Clone, Copy, Debug, PartialEq, Eq, Hash)]
pub struct ParseError(&'static str);

impl fmt::Display for ParseError {
    fn fmt(&self, f: &mut fmt::Formatter) -> fmt::Result {
        f.pad(self.0)
    }
}

impl Error for ParseError {}

/// Its number.
impl fmt::Display for Offset {
    fn fmt(&self, f: &mut fmt::Formatter) -> fmt::Result {
        self.number().fmt(f)
    }
}

/// Reads its number, in decimal digits.
///
/// ```
/// use slipgrease::Offset;
///
/// assert_eq!("15".parse().map(Offset::number), Ok(15));
/// assert!(["16", "-1", "0x3", "f", "", " 3"].iter().all(|text| text.parse::<Offset>().is_err()));
/// ```
impl FromStr for Offset {
    type Err = ParseError;

    fn from_str(text: &str) -> Result<Offset, ParseError> {
        number(text).and_then(|number| Offset::new(number).ok()).ok_or(ParseError("an offset is a number from 0 to 15"))
    }
}

/// The number of the one offset that stands for them, or all sixteen, with commas between them.
impl fmt::Display for Offsets {
    fn fmt(&self, f: &mut fmt::Formatter) -> fmt::Result {
        match self.as_one() {
            Some(offset) => offset.fmt(f),
            None => f.pad(&self.as_bytes().map(|number| number.to_string()).join(",")),
        }
    }
}

/// Reads one number, or sixteen with commas between them, in decimal digits.
///
/// ```
/// use slipgrease::{Offset, Offsets};
///
/// let one: Offsets = "3".parse().unwrap();
/// let sixteen: Offsets = "3,9,0,15,7,7,12,4,1,10,2,8,5,14,6,11".parse().unwrap();
/// assert_eq!((one.as_one(), sixteen.as_bytes()[3]), (Offset::new(3).ok(), 15));
/// assert_eq!((one.to_string(), sixteen.to_string()), ("3".into(), "3,9,0,15,7,7,12,4,1,10,2,8,5,14,6,11".into()));
/// assert!(["3,4", "16", "3, 9"].iter().all(|text| text.parse::<Offsets>().is_err()));
/// ```
impl FromStr for Offsets {
    type Err = ParseError;

    fn from_str(text: &str) -> Result<Offsets, ParseError> {
        let read: Option<Vec<u8>> = text.split(',').map(number).collect();
        let offsets = match read.as_deref() {
            Some([one]) => Offset::new(*one).map(Offsets::one).ok(),
            Some(numbers) => Offsets::try_from(numbers).ok(),
            None => None,
        };
        offsets.ok_or(ParseError("offsets are a number from 0 to 15, or sixteen with commas between them"))
    }
}

/// Its number.
impl fmt::Display for Step {
    fn fmt(&self, f: &mut fmt::Formatter) -> fmt::Result {
        self.number().fmt(f)
    }
}

/// Reads its number, in decimal digits.
///
/// ```
/// use slipgrease::Step;
///
/// assert_eq!("1".parse(), Ok(Step::ONE));
/// assert!(["0", "2", "3", "16", "257", "+4", "one"].iter().all(|text| text.parse::<Step>().is_err()));
/// ```
impl FromStr for Step {
    type Err = ParseError;

    fn from_str(text: &str) -> Result<Step, ParseError> {
        number(text).and_then(|number| Step::new(number).ok()).ok_or(ParseError("a step is 1, or a number from 4 to 15"))
    }
}

/// The number that nothing but decimal digits make.
fn number(text: &str) -> Option<u8> {
    text.bytes().all(|byte| byte.is_ascii_digit()).then(|| text.parse().ok())?
}

/// The hex digits of the sixteen bytes.
impl fmt::Display for Masks {
    fn fmt(&self, f: &mut fmt::Formatter) -> fmt::Result {
        f.pad(&format!("{:032x}", u128::from_be_bytes(*self.as_bytes())))
    }
}

/// Reads 32 hex digits.
///
/// ```
/// use slipgrease::Masks;
///
/// assert_eq!(Masks::PUBLISHED.to_string(), "000f3639535c656a959aa3acc6c9f0ff");
/// assert_eq!("000F3639535C656A959AA3ACC6C9F0FF".parse(), Ok(Masks::PUBLISHED));
/// assert!("00 0f 36".parse::<Masks>().is_err());
/// ```
impl FromStr for Masks {
    type Err = ParseError;

    fn from_str(text: &str) -> Result<Masks, ParseError> {
        let whole = text.len() == 32 && text.bytes().all(|byte| byte.is_ascii_hexdigit());
        let read = whole.then(|| u128::from_str_radix(text, 16).ok()).flatten();
        read.map(|number| Masks::new(number.to_be_bytes())).ok_or(ParseError("sixteen masks are 32 hex digits"))
    }
}

impl fmt::Display for Parity {
    fn fmt(&self, f: &mut fmt::Formatter) -> fmt::Result {
        f.pad(match self {
            Parity::Even => "even",
            Parity::Odd => "odd",
        })
    }
}

/// Reads `even` or `odd`.
impl FromStr for Parity {
    type Err = ParseError;

    fn from_str(text: &str) -> Result<Parity, ParseError> {
        match text {
            "even" => Ok(Parity::Even),
            "odd" => Ok(Parity::Odd),
            _ => Err(ParseError("a parity is even or odd")),
        }
    }
}

/// What is done, and of scrambling the parity.
///
/// ```
/// use slipgrease::{Parity, Way};
///
/// assert_eq!(Way::Scramble(Parity::Odd).to_string(), "scramble odd");
/// assert_eq!(Way::Descramble.to_string(), "descramble");
/// ```
impl fmt::Display for Way {
    fn fmt(&self, f: &mut fmt::Formatter) -> fmt::Result {
        f.pad(match self {
            Way::Scramble(Parity::Even) => "scramble even",
            Way::Scramble(Parity::Odd) => "scramble odd",
            Way::Descramble => "descramble",
        })
    }
}

impl fmt::Display for Fault {
    fn fmt(&self, f: &mut fmt::Formatter) -> fmt::Result {
        f.pad(match self {
            Fault::Caller => "caller fault",
            Fault::Data => "data fault",
        })
    }
}

#[cfg(test)]
mod tests {
    use super::*;

    /// Reads back what is printed, for all of them; and nothing else of a byte's numbers is read.
    #[test]
    fn what_is_printed_is_read() {
        for number in 0..=255_u8 {
            let text = number.to_string();
            assert_eq!(text.parse::<Offset>().ok(), Offset::try_from(number).ok());
            assert_eq!(text.parse::<Step>().ok(), Step::try_from(number).ok());
            let masks = Masks::new(std::array::from_fn(|i| number.wrapping_mul(37).wrapping_add(11 * i as u8)));
            assert_eq!(masks.to_string().parse(), Ok(masks));
            let sixteen = Offsets::new(masks.as_bytes().map(|mask| mask % 16)).unwrap();
            assert_eq!(sixteen.to_string().parse(), Ok(sixteen));
            assert_eq!(text.parse().ok(), Offset::try_from(number).ok().map(Offsets::one));
        }
        assert!(Offset::all().all(|offset| offset.to_string().parse() == Ok(offset)));
        assert!(Offset::all().all(|offset| Offsets::one(offset).to_string() == offset.to_string()));
        assert!(Step::all().all(|step| step.to_string().parse() == Ok(step)));
        assert!([Parity::Even, Parity::Odd].iter().all(|parity| parity.to_string().parse() == Ok(*parity)));
    }

    #[test]
    fn other_texts_are_not_read() {
        for text in ["", " ", "+1", "1 ", "01x", "١", "256", "99999999999999999999"] {
            assert_eq!(text.parse::<Offset>(), Err(ParseError("an offset is a number from 0 to 15")), "{text}");
            assert_eq!(text.parse::<Step>(), Err(ParseError("a step is 1, or a number from 4 to 15")), "{text}");
            assert_eq!(text.parse::<Parity>(), Err(ParseError("a parity is even or odd")), "{text}");
        }
        let fifteen = "3,9,0,15,7,7,12,4,1,10,2,8,5,14,6";
        assert!(format!("{fifteen},015").parse::<Offsets>().is_ok());
        for behind in ["", ",", ",16", ",+1", ", 1", ",1,", ",1,2", ";1"] {
            let error = ParseError("offsets are a number from 0 to 15, or sixteen with commas between them");
            assert_eq!(format!("{fifteen}{behind}").parse::<Offsets>(), Err(error), "{behind}");
        }
        let digits = "000f3639535c656a959aa3acc6c9f0ff";
        for text in ["", &digits[1..], &format!("{digits}0"), &digits.replace("0f36", "+f36"), &digits.replace("ff", "é")] {
            assert_eq!(text.parse::<Masks>(), Err(ParseError("sixteen masks are 32 hex digits")), "{text}");
        }
    }
}
