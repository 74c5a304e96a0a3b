//! The report of sixteen masks: how often each pattern of any three bits shows, wherever a mask lies over the state.

use crate::masks::Masks;
use crate::slices;
use std::fmt;

/// How many bytes a row has, and how many triples of bits a byte.
const BYTES: u8 = 16;
const TRIPLES: usize = 56;

/// A row of the mask table in which a mask lies over the state: at all points of an encryption but the last.
///
/// ```
/// use slipgrease::Row;
///
/// assert_eq!(Row::all().map(Row::number).collect::<Vec<_>>(), [1, 2, 3, 4, 5, 6, 7]);
/// assert_eq!([Row::Block, Row::Key].map(|row| row.to_string()), ["covered block", "after a key"]);
/// ```
#[derive(Clone, Copy, Debug, PartialEq, Eq, PartialOrd, Ord, Hash)]
pub enum Row {
    /// The covered block.
    Block = 1,
    /// After any round key but the last.
    Key = 2,
    /// After the boxes.
    Boxes = 3,
    /// After ShiftRows.
    ShiftRows = 4,
    /// After MixColumns, where a mask is mixed of four. This row alone need not be even where the masks are fit.
    MixColumns = 5,
    /// After the compensation.
    Compensation = 6,
    /// After the last round key.
    LastKey = 7,
}

impl Row {
    /// All seven, in their order.
    pub fn all() -> impl Iterator<Item = Row> {
        use Row::*;
        [Block, Key, Boxes, ShiftRows, MixColumns, Compensation, LastKey].into_iter()
    }

    /// Its number, 1 to 7.
    pub fn number(self) -> u8 {
        self as u8
    }
}

/// Its name.
impl fmt::Display for Row {
    fn fmt(&self, f: &mut fmt::Formatter) -> fmt::Result {
        f.pad(match self {
            Row::Block => "covered block",
            Row::Key => "after a key",
            Row::Boxes => "after boxes",
            Row::ShiftRows => "after ShiftRows",
            Row::MixColumns => "after MixColumns",
            Row::Compensation => "after compensation",
            Row::LastKey => "after the last key",
        })
    }
}

/// A line of a report: three bits of the mask over a byte in a row, and at how many of the sixteen offsets they show each of their
/// eight patterns. The counts are the same in any round, and with any step.
///
/// ```
/// use slipgrease::{Masks, Row};
///
/// // The fifteen masks 00 show the pattern 000, and the mask 80 shows 100: the highest of the three bits comes first.
/// let mut masks = [0; 16];
/// masks[9] = 0x80;
/// let report = Masks::new(masks).report();
/// let line = report.lines()[5];
/// assert_eq!((line.row(), line.byte(), line.bits()), (Row::Block, 0, [0, 1, 7]));
/// assert_eq!(line.counts(), [15, 0, 0, 0, 1, 0, 0, 0]);
/// assert_eq!(line.to_string(), "1 0 0 1 7 15 0 0 0 1 0 0 0");
/// assert!(!line.is_even());
/// ```
#[derive(Clone, Copy, Debug, PartialEq, Eq, Hash)]
pub struct Line {
    row: Row,
    byte: u8,
    bits: [u8; 3],
    counts: [u8; 8],
}

impl Line {
    fn new(masks: &Masks, row: Row, byte: u8, bits: [u8; 3]) -> Line {
        let count =
            |pattern| slices::mask_count(masks.as_bytes(), row.number(), byte, bits, pattern).expect("the length is right");
        Line { row, byte, bits, counts: [0, 1, 2, 3, 4, 5, 6, 7].map(count) }
    }

    /// The row.
    pub fn row(&self) -> Row {
        self.row
    }

    /// The byte, 0 to 15.
    pub fn byte(&self) -> u8 {
        self.byte
    }

    /// The three bits as they rise, 0 being the lowest of a byte and 7 the highest.
    pub fn bits(&self) -> [u8; 3] {
        self.bits
    }

    /// The count of each pattern, from 000 to 111, with the highest bit first.
    pub fn counts(&self) -> [u8; 8] {
        self.counts
    }

    /// Whether each pattern shows at exactly two of the offsets.
    pub fn is_even(&self) -> bool {
        self.counts == [2; 8]
    }
}

/// Row, byte, three bits and eight counts, with a space between them.
impl fmt::Display for Line {
    fn fmt(&self, f: &mut fmt::Formatter) -> fmt::Result {
        write!(f, "{} {}", self.row.number(), self.byte)?;
        self.bits.iter().chain(&self.counts).try_for_each(|number| write!(f, " {number}"))
    }
}

/// What lines come to: how many are even, and the lowest and the highest of their counts.
#[derive(Clone, Copy, Debug, PartialEq, Eq, Hash)]
pub struct Summary {
    even: usize,
    lowest: u8,
    highest: u8,
}

impl Summary {
    fn of(lines: &[Line]) -> Summary {
        let counts = || lines.iter().flat_map(|line| line.counts);
        Summary {
            even: lines.iter().filter(|line| line.is_even()).count(),
            lowest: counts().min().expect("there are lines"),
            highest: counts().max().expect("there are lines"),
        }
    }

    /// How many lines are even.
    pub fn even(&self) -> usize {
        self.even
    }

    /// The lowest count.
    pub fn lowest(&self) -> u8 {
        self.lowest
    }

    /// The highest count, 16 at most.
    pub fn highest(&self) -> u8 {
        self.highest
    }
}

/// The three numbers, with a space between them.
impl fmt::Display for Summary {
    fn fmt(&self, f: &mut fmt::Formatter) -> fmt::Result {
        write!(f, "{} {} {}", self.even, self.lowest, self.highest)
    }
}

/// All counts of sixteen masks, a line for each row, byte and triple of bits: 6,272. [`Masks::report`] makes it.
///
/// Of masks that are fit every line is even, except in row 5, after MixColumns:
///
/// ```
/// use slipgrease::{Masks, Row};
///
/// let report = Masks::PUBLISHED.report();
/// assert_eq!(report.lines().len(), 6272);
/// assert_eq!(report.summary().to_string(), "5440 0 7");
/// for row in Row::all().filter(|row| *row != Row::MixColumns) {
///     assert_eq!(report.summary_of(row).to_string(), "896 2 2");
/// }
/// ```
#[derive(Clone, Debug, PartialEq, Eq)]
pub struct Report {
    masks: Masks,
    lines: Vec<Line>,
}

impl Report {
    pub(crate) fn of(masks: &Masks) -> Report {
        let triples = triples();
        let places = Row::all().flat_map(|row| (0..BYTES).map(move |byte| (row, byte)));
        let line = |(row, byte)| triples.iter().map(move |bits| Line::new(masks, row, byte, *bits));
        Report { masks: *masks, lines: places.flat_map(line).collect() }
    }

    /// The masks.
    pub fn masks(&self) -> &Masks {
        &self.masks
    }

    /// The lines, by their rows, in a row by their bytes, and in a byte by their bits, of which the highest is the first to rise.
    pub fn lines(&self) -> &[Line] {
        &self.lines
    }

    /// What all lines come to.
    pub fn summary(&self) -> Summary {
        Summary::of(&self.lines)
    }

    /// What the 896 lines of a row come to.
    pub fn summary_of(&self, row: Row) -> Summary {
        Summary::of(self.lines_of(row))
    }

    /// How many of the 56 triples of a byte, 0 to 15, are even in a row. Where there is no such byte, it panics.
    ///
    /// ```
    /// use slipgrease::{Masks, Row};
    ///
    /// // Of the masks 00 to 0f any three of the lower four bits are even, and no others.
    /// let report = Masks::new(std::array::from_fn(|i| i as u8)).report();
    /// assert_eq!(report.even_in(Row::Boxes, 15), 4);
    /// ```
    pub fn even_in(&self, row: Row, byte: usize) -> usize {
        Summary::of(&self.lines_of(row)[TRIPLES * byte..][..TRIPLES]).even
    }

    fn lines_of(&self, row: Row) -> &[Line] {
        let length = TRIPLES * usize::from(BYTES);
        &self.lines[length * (usize::from(row.number()) - 1)..][..length]
    }
}

/// The triples of bits as they rise.
fn triples() -> Vec<[u8; 3]> {
    let pairs = (0..8).flat_map(|low| (low + 1..8).map(move |middle| (low, middle)));
    pairs.flat_map(|(low, middle)| (middle + 1..8).map(move |high| [low, middle, high])).collect()
}

/// Every line, and a last one for what all come to.
///
/// ```
/// use slipgrease::Masks;
///
/// let said = Masks::PUBLISHED.report().to_string();
/// assert_eq!(said.lines().next(), Some("1 0 0 1 2 2 2 2 2 2 2 2 2"));
/// assert_eq!(said.lines().last(), Some("5440 0 7"));
/// ```
impl fmt::Display for Report {
    fn fmt(&self, f: &mut fmt::Formatter) -> fmt::Result {
        self.lines.iter().try_for_each(|line| writeln!(f, "{line}"))?;
        self.summary().fmt(f)
    }
}

#[cfg(test)]
mod tests;
