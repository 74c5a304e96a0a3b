//! The counts of a mask table: at how many of the sixteen offsets the mask over a byte shows a pattern in three of its bits. Each is
//! counted as the table's text has it, in a round and with a step that the library is not told, since all count alike.
//!
//! `second report SHEET` prints the report of a sheet: a line for each row, byte and triple of bits, and a last line; or the number
//! alone with which the sheet is refused.

use crate::answer::{packed, value};
use crate::cases::{counted_inside, step};
use crate::cipher::{mix_columns, shift_rows, State};
use crate::masked::{of_one, Masking, PUBLISHED};
use crate::random::Random;
use crate::report::Tally;
use crate::sheet;
use slipgrease::calls;
use std::array::from_fn;
use std::fs;

/// The rounds in which rows 2 to 6 are: in round 13 no columns are mixed.
pub const ROUNDS: usize = 13;

/// A row of the mask table, a byte, three of its bits and the pattern that they are to show.
#[derive(Clone, Copy, Debug)]
pub struct Counted {
    pub row: u8,
    pub byte: u8,
    pub bits: [u8; 3],
    pub pattern: u8,
}

/// At how many offsets it is shown: at none, where there is no such row, byte, triple or pattern.
pub fn count(masks: [u8; 16], counted: Counted, round: usize, step: u8) -> u8 {
    let shows = |offset: &u8| {
        let masking = Masking { masks, offsets: of_one(*offset), step };
        shown(&masking, counted, round) == Some(counted.pattern)
    };
    (0..16).filter(shows).count() as u8
}

/// What the three bits show, the highest of them first.
fn shown(masking: &Masking, counted: Counted, round: usize) -> Option<u8> {
    let mask = mask_over(counted.row, masking, round)?;
    let byte = mask.get(usize::from(counted.byte))?;
    let [x, y, z] = counted.bits;
    (x < y && y < z && z < 8).then(|| [z, y, x].iter().fold(0, |pattern, bit| 2 * pattern + (byte >> bit & 1)))
}

/// The mask over the state of a row; the last is behind the last round, of which there are as many as any key has.
fn mask_over(row: u8, masking: &Masking, round: usize) -> Option<State> {
    let after_boxes = masking.mask(round + 1);
    match row {
        1 => Some(masking.mask(0)),
        2 => Some(masking.mask(round)),
        3 | 6 => Some(after_boxes),
        4 => Some(shift_rows(&after_boxes)),
        5 => Some(mix_columns(&shift_rows(&after_boxes))),
        7 => Some(shift_rows(&masking.mask([10, 12, 14][round % 3]))),
        _ => None,
    }
}

/// All that have a line, as they rise, with pattern 0.
fn lines() -> impl Iterator<Item = Counted> {
    let triples = (0..8).flat_map(|x| (x + 1..8).flat_map(move |y| (y + 1..8).map(move |z| [x, y, z])));
    let places = (1..=7).flat_map(|row| (0..16).map(move |byte| (row, byte)));
    places.flat_map(move |(row, byte)| triples.clone().map(move |bits| Counted { row, byte, bits, pattern: 0 }))
}

/// Compares all counts of three tables; then each number of a count is given every value, so that nearly all of them are outside.
/// Spoiled expectations must all be found to differ.
pub fn compare(random: &mut Random, spoiled: bool) -> Tally {
    let mut tally = Tally::default();
    for masks in [PUBLISHED, from_fn(|i| i as u8), from_fn(|_| random.byte())] {
        for (line, pattern) in lines().flat_map(|line| (0..8).map(move |pattern| (line, pattern))) {
            case(&mut tally, random, spoiled, masks, Counted { pattern, ..line });
        }
    }
    for (place, number) in (0..6).flat_map(|place| (0..=255).map(move |number| (place, number))) {
        let mut counted = counted_inside(random);
        match place {
            0 => counted.row = number,
            1 => counted.byte = number,
            2..=4 => counted.bits[place - 2] = number,
            _ => counted.pattern = number,
        }
        case(&mut tally, random, spoiled, PUBLISHED, counted);
    }
    tally
}

fn case(tally: &mut Tally, random: &mut Random, spoiled: bool, masks: [u8; 16], counted: Counted) {
    let mut expected = value(count(masks, counted, random.below(ROUNDS), step(random, false)));
    if spoiled {
        expected.spoil(random);
    }
    let Counted { row, byte, bits: [low, middle, high], pattern } = counted;
    let given = packed(calls::mask_count(&masks, row, byte, low, middle, high, pattern));
    let same = given == expected;
    if !same && !spoiled && tally.differ == 0 {
        println!("mask_count of {masks:02x?}, {counted:?}: expected {expected:?}, given {given:?}");
    }
    tally.add(same);
}

/// Prints the report of the sheet in a file.
pub fn print(path: &str) -> Result<bool, String> {
    let bytes = fs::read(path).map_err(|error| format!("{path}: {error}"))?;
    match sheet::read(&bytes) {
        Ok((masks, step)) => print!("{}", report(masks, step)),
        Err(number) => println!("{number}"),
    }
    Ok(true)
}

fn report(masks: [u8; 16], step: u8) -> String {
    let mut text = String::new();
    let (mut even, mut lowest, mut highest) = (0, 16, 0);
    for (number, line) in lines().enumerate() {
        // From line to line in another round.
        let counts: [u8; 8] = from_fn(|t| count(masks, Counted { pattern: t as u8, ..line }, number % ROUNDS, step));
        even += usize::from(counts == [2; 8]);
        lowest = counts.into_iter().fold(lowest, u8::min);
        highest = counts.into_iter().fold(highest, u8::max);
        let numbers = [&[line.row, line.byte][..], &line.bits, &counts].concat();
        text += &numbers.iter().map(u8::to_string).collect::<Vec<_>>().join(" ");
        text.push('\n');
    }
    text + &format!("{even} {lowest} {highest}\n")
}
