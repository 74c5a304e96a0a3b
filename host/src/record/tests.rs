//! The records of C.1, C.2 and C.3 in both directions: each state is that of the standard, under the mask that its point names.

use super::{Direction, Point, Stage};
use crate::key::Rounds;
use crate::masks::{Masks, Offset, Step};
use crate::offsets::Offsets;
use crate::schedule::{Block, Schedule};
use std::array::from_fn;
use std::collections::BTreeMap;

/// The examples of FIPS 197, C: the key is 00, 01, 02 .., and the plaintext is the same in all three.
const PLAINTEXT: Block = 0x00112233445566778899aabbccddeeff_u128.to_be_bytes();
const CIPHERTEXTS: [(Rounds, Block); 3] = [
    (Rounds::Ten, 0x69c4e0d86a7b0430d8cdb78070b4c55a_u128.to_be_bytes()),
    (Rounds::Twelve, 0xdda97ca4864cdfe06eaf70a0ec0d7191_u128.to_be_bytes()),
    (Rounds::Fourteen, 0x8ea2b7ca516745bfeafc49904b496089_u128.to_be_bytes()),
];

fn schedule(rounds: Rounds) -> Schedule {
    let key: Vec<u8> = (0..rounds.key_bytes()).map(|i| i as u8).collect();
    Schedule::expand_slice(&key).unwrap()
}

/// The states of a plain encryption by round and name, as the standard lists them.
struct Listed {
    rounds: usize,
    states: BTreeMap<(usize, &'static str), Block>,
}

impl Listed {
    /// Worked out here, step by step.
    fn new(schedule: &Schedule) -> Listed {
        let (rounds, boxes) = (schedule.rounds().number(), boxes());
        let add = |key: usize, state: &Block| -> Block { from_fn(|i| state[i] ^ schedule.as_bytes()[16 * key + i]) };
        let mut states = BTreeMap::from([((0, "input"), PLAINTEXT)]);
        let mut start = add(0, &PLAINTEXT);
        for round in 1..=rounds {
            let s_box = start.map(|byte| boxes[usize::from(byte)]);
            let s_row = shifted(&s_box);
            let m_col = mixed(&s_row, [2, 3, 1, 1]);
            states.extend([((round, "start"), start), ((round, "s_box"), s_box), ((round, "s_row"), s_row)]);
            start = add(round, &m_col);
            let (name, made) = if round < rounds { ("m_col", m_col) } else { ("output", add(round, &s_row)) };
            states.insert((round, name), made);
        }
        Listed { rounds, states }
    }

    fn at(&self, round: usize, name: &'static str) -> Block {
        self.states[&(round, name)]
    }

    /// The state of the plain run. The standard counts the rounds from 1, and a decryption goes through them from the last.
    fn plain(&self, direction: Direction, point: Point) -> Block {
        let last = self.rounds;
        let round = match direction {
            Direction::Encryption => point.round() + 1,
            Direction::Decryption => last - point.round(),
        };
        match (direction, point.stage(), point.key()) {
            (Direction::Encryption, Stage::Block, _) | (Direction::Decryption, Stage::Uncovering, _) => self.at(0, "input"),
            (Direction::Decryption, Stage::Block, _) | (Direction::Encryption, Stage::Uncovering, _) => self.at(last, "output"),
            (Direction::Encryption, _, Some(key)) if key == last => self.at(last, "output"),
            (Direction::Encryption, _, Some(key)) => self.at(key + 1, "start"),
            (Direction::Decryption, _, Some(0)) => self.at(0, "input"),
            (Direction::Decryption, _, Some(key)) if key == last => self.at(last, "s_row"),
            (Direction::Decryption, _, Some(key)) => self.at(key, "m_col"),
            (_, Stage::Boxes | Stage::InvShiftRows | Stage::Correction, _) => self.at(round, "s_box"),
            (_, Stage::ShiftRows, _) => self.at(round, "s_row"),
            (_, Stage::MixColumns | Stage::Compensation, _) => self.at(round, "m_col"),
            (_, Stage::InverseBoxes, _) => self.at(round, "start"),
            (_, Stage::InvMixColumns | Stage::Restoration, _) => self.at(round - 1, "s_row"),
            (_, stage, None) => unreachable!("{stage:?} has a key"),
        }
    }
}

/// FIPS 197's SBOX: the inverse, each of whose bits is added to four others, and 63.
fn boxes() -> Vec<u8> {
    let inverse = |x: u8| (0..=255).find(|y| product(x, *y) == 1).unwrap_or(0);
    let box_of = |x: u8| [1, 2, 3, 4].iter().fold(x ^ 0x63, |sum, by| sum ^ x.rotate_left(*by));
    (0..=255).map(|x| box_of(inverse(x))).collect()
}

/// C.3 as the file of vectors has it, `1 start 00102030405060708090a0b0c0d0e0f0`, and the ciphertexts of all three.
#[test]
fn what_is_worked_out_is_the_standard_s() {
    let worked_out = Listed::new(&schedule(Rounds::Fourteen));
    for ((round, name), state) in &worked_out.states {
        let row = format!("{round} {name} {:032x}", u128::from_be_bytes(*state));
        assert!(include_str!("../../../crates/vectors/stdin").lines().any(|line| line == row), "{row}");
    }
    assert_eq!(worked_out.states.len(), 1 + 14 * 4);
    for (rounds, ciphertext) in CIPHERTEXTS {
        assert_eq!(Listed::new(&schedule(rounds)).at(rounds.number(), "output"), ciphertext);
    }
}

/// The sixteen bytes that a mask's name stands for: Mask(7) has label 7 + i at byte i, and Mask(o+4) the offset there and 4.
fn named(name: &str, masks: &Masks, offsets: &Offsets) -> Block {
    if name == "none" {
        return [0; 16];
    }
    let (function, inside) = name.strip_suffix(')').and_then(|name| name.split_once('(')).expect(name);
    if function == "Mask" {
        let (own, on) = match inside.strip_prefix('o') {
            Some(on) => (true, on.strip_prefix('+').unwrap_or("0")),
            None => (false, inside),
        };
        let (on, places) = (on.parse::<usize>().expect(name), offsets.as_bytes());
        return from_fn(|i| masks.as_bytes()[(on + if own { places[i].into() } else { i }) % 16]);
    }
    let inside = named(inside, masks, offsets);
    match function {
        "ShiftRows" => shifted(&inside),
        "InvShiftRows" => from_fn(|i| inside[(i + 12 * (i % 4)) % 16]),
        "MixColumns" => mixed(&inside, [2, 3, 1, 1]),
        "InvMixColumns" => mixed(&inside, [0xe, 0xb, 0xd, 0x9]),
        _ => unreachable!("{name}"),
    }
}

fn shifted(state: &Block) -> Block {
    from_fn(|i| state[(i + 4 * (i % 4)) % 16])
}

/// The columns multiplied by the matrix that has this first row, each other row being the one before turned by one.
fn mixed(state: &Block, row: [u8; 4]) -> Block {
    from_fn(|i| (0..4).fold(0, |sum, k| sum ^ product(state[i / 4 * 4 + k], row[(4 + k - i % 4) % 4])))
}

fn product(a: u8, b: u8) -> u8 {
    let doubled = |x: u8| x << 1 ^ if x & 0x80 == 0 { 0 } else { 0x1b };
    let multiple = |i: usize| (0..i).fold(a, |x, _| doubled(x));
    (0..8).filter(|i| b >> i & 1 == 1).fold(0, |sum, i| sum ^ multiple(i))
}

fn both_ways(rounds: Rounds) -> [(Direction, Rounds); 2] {
    [Direction::Encryption, Direction::Decryption].map(|direction| (direction, rounds))
}

#[test]
fn every_state_is_the_standard_s_under_the_mask_that_is_named() {
    let others = Masks::new(from_fn(|i| (37 * i * i + 11) as u8));
    for (direction, rounds) in Rounds::all().flat_map(both_ways) {
        let schedule = schedule(rounds);
        let listed = Listed::new(&schedule);
        let (plaintext, ciphertext) = (PLAINTEXT, listed.at(rounds.number(), "output"));
        let plain: Vec<(Point, Block)> = direction.points(rounds).map(|point| (point, listed.plain(direction, point))).collect();
        for (offset, step) in Offset::all().flat_map(|offset| Step::all().map(move |step| (offset, step))) {
            let mixed = Offsets::new(from_fn(|i| ((usize::from(offset.number()) + 5 * i * i + 3 * i) % 16) as u8)).unwrap();
            for (masks, offsets) in [(Masks::PUBLISHED, Offsets::one(offset)), (others, Offsets::one(offset)), (others, mixed)] {
                let record = match direction {
                    Direction::Encryption => schedule.record_masked(&plaintext, &masks, offsets, step),
                    Direction::Decryption => schedule.record_masked_decryption(&ciphertext, &masks, offsets, step),
                };
                assert_eq!((record.direction(), record.rounds()), (direction, rounds));
                assert_eq!(record.as_bytes().len(), 16 * plain.len());
                for ((point, state), (its, covered)) in plain.iter().zip(record.states()) {
                    let mask = named(&point.mask(offsets, step), &masks, &offsets);
                    let expected: Block = from_fn(|i| state[i] ^ mask[i]);
                    assert_eq!((its, covered), (*point, &expected), "{point}, {offsets:?}, {step:?}");
                }
            }
        }
    }
}

/// Ten, twelve or fourteen of them in either direction, and each point belongs to the one that has begun.
#[test]
fn rounds_follow_one_another() {
    for (direction, rounds) in Rounds::all().flat_map(both_ways) {
        let mut begun = 0;
        for point in direction.points(rounds) {
            begun += usize::from(point.begins_round());
            assert_eq!(point.round(), begun.max(1) - 1, "{point}");
        }
        assert_eq!(begun, rounds.number());
    }
}

/// Two states with one mask, between which a round key was added, give the key away; `Debug` tells nothing of that.
#[test]
fn a_record_has_the_round_keys_and_does_not_show_them() {
    let (offset, step) = (Offset::new(11).unwrap(), Step::new(5).unwrap());
    for schedule in Rounds::all().map(schedule) {
        let forth = schedule.record_masked(&[9; 16], &Masks::PUBLISHED, offset, step);
        let back = schedule.record_masked_decryption(&[9; 16], &Masks::PUBLISHED, offset, step);
        for record in [&forth, &back] {
            for (point, state) in record.states() {
                if let Some(key) = point.key() {
                    let added: Block = from_fn(|i| state[i] ^ record.state(point.number() - 1)[i]);
                    assert_eq!(added[..], schedule.as_bytes()[16 * key..][..16], "{point}");
                }
            }
            assert!(format!("{record:?}").len() < 40 && format!("{record:#?}").len() < 50, "{record:?}");
        }
        let other = schedule.record_masked(&[8; 16], &Masks::PUBLISHED, offset, step);
        assert_ne!(forth, other);
        assert_eq!(format!("{forth:?}"), format!("{other:?}"));
    }
}
