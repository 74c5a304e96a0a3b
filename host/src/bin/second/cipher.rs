//! AES as FIPS 197 writes it, with keys of 16, 24 and 32 bytes: the transformations on a state, key expansion, CIPHER, INVCIPHER and
//! the recorded runs.

use crate::field::{s_box, times};
use std::array::from_fn;

/// Byte r + 4c is row r of column c.
pub type State = [u8; 16];

/// Which way a run goes.
#[derive(Clone, Copy)]
pub enum Direction {
    Encryption,
    Decryption,
}

/// S and its inverse, worked out once from the formula.
pub struct Boxes {
    forward: [u8; 256],
    backward: [u8; 256],
}

impl Boxes {
    pub fn new() -> Boxes {
        let forward: [u8; 256] = from_fn(|x| s_box(x as u8));
        let mut backward = [0; 256];
        for x in 0..=255u8 {
            backward[usize::from(forward[usize::from(x)])] = x;
        }
        Boxes { forward, backward }
    }

    pub fn s(&self, x: u8) -> u8 {
        self.forward[usize::from(x)]
    }

    pub fn inv_s(&self, x: u8) -> u8 {
        self.backward[usize::from(x)]
    }

    fn sub_bytes(&self, s: &State) -> State {
        s.map(|x| self.s(x))
    }

    fn inv_sub_bytes(&self, s: &State) -> State {
        s.map(|x| self.inv_s(x))
    }
}

pub fn add(a: &State, b: &State) -> State {
    from_fn(|i| a[i] ^ b[i])
}

/// Row r, column c gets the byte of row r, column c + r.
pub fn shift_rows(s: &State) -> State {
    from_fn(|i| s[i % 4 + 4 * ((i / 4 + i % 4) % 4)])
}

pub fn inv_shift_rows(s: &State) -> State {
    from_fn(|i| s[i % 4 + 4 * ((i / 4 + 4 - i % 4) % 4)])
}

/// Each byte times each number up to 0f, worked out once from the formula: columns are mixed with such numbers.
static PRODUCTS: [[u8; 256]; 16] = products();

const fn products() -> [[u8; 256]; 16] {
    let mut products = [[0; 256]; 16];
    let mut n = 0;
    while n < 16 * 256 {
        products[n / 256][n % 256] = times((n % 256) as u8, (n / 256) as u8);
        n += 1;
    }
    products
}

/// Each column times the circulant matrix whose first row is given.
fn mix(s: &State, first_row: [usize; 4]) -> State {
    from_fn(|i| {
        let (row, column) = (i % 4, i / 4);
        (0..4).fold(0, |sum, k| sum ^ PRODUCTS[first_row[(k + 4 - row) % 4]][usize::from(s[4 * column + k])])
    })
}

pub fn mix_columns(s: &State) -> State {
    mix(s, [0x02, 0x03, 0x01, 0x01])
}

pub fn inv_mix_columns(s: &State) -> State {
    mix(s, [0x0e, 0x0b, 0x0d, 0x09])
}

/// The state under sixteen bytes of a schedule.
pub fn add_round_key(s: &State, schedule: &[u8], round: usize) -> State {
    from_fn(|i| s[i] ^ schedule[16 * round + i])
}

/// How many rounds a schedule is for: it has a round key for each, and one more.
pub fn rounds(schedule: &[u8]) -> usize {
    schedule.len() / 16 - 1
}

/// KEYEXPANSION for nk words of key: nk + 6 rounds, and four words for each and before the first.
pub fn expand_key(boxes: &Boxes, key: &[u8]) -> Vec<u8> {
    let mut words: Vec<[u8; 4]> = key.chunks(4).map(|w| [w[0], w[1], w[2], w[3]]).collect();
    let nk = words.len();
    let mut constant = 1;
    for i in nk..4 * (nk + 6 + 1) {
        let mut temp = words[i - 1];
        if i % nk == 0 {
            temp.rotate_left(1);
            temp = temp.map(|x| boxes.s(x));
            temp[0] ^= constant;
            constant = times(constant, 2);
        } else if nk > 6 && i % nk == 4 {
            temp = temp.map(|x| boxes.s(x));
        }
        let earlier = words[i - nk];
        words.push(from_fn(|k| earlier[k] ^ temp[k]));
    }
    words.concat()
}

/// CIPHER with the rounds of a schedule.
pub fn encrypt(boxes: &Boxes, schedule: &[u8], block: &State) -> State {
    let last = rounds(schedule);
    let mut s = add_round_key(block, schedule, 0);
    for round in 1..last {
        s = mix_columns(&shift_rows(&boxes.sub_bytes(&s)));
        s = add_round_key(&s, schedule, round);
    }
    add_round_key(&shift_rows(&boxes.sub_bytes(&s)), schedule, last)
}

/// INVCIPHER with the same rounds: the inverse steps in the inverse order.
pub fn decrypt(boxes: &Boxes, schedule: &[u8], block: &State) -> State {
    let last = rounds(schedule);
    let mut s = add_round_key(block, schedule, last);
    for round in (1..last).rev() {
        s = boxes.inv_sub_bytes(&inv_shift_rows(&s));
        s = inv_mix_columns(&add_round_key(&s, schedule, round));
    }
    add_round_key(&boxes.inv_sub_bytes(&inv_shift_rows(&s)), schedule, 0)
}

/// The states of a plain run. Where a masked run compensates, corrects or uncovers, the state before stands again.
pub fn record(direction: Direction, boxes: &Boxes, schedule: &[u8], block: &State) -> Vec<State> {
    match direction {
        Direction::Encryption => record_cipher(boxes, schedule, block),
        Direction::Decryption => record_inv_cipher(boxes, schedule, block),
    }
}

/// Five of each round of CIPHER, and one before.
fn record_cipher(boxes: &Boxes, schedule: &[u8], block: &State) -> Vec<State> {
    let last = rounds(schedule);
    let mut states = vec![*block];
    let mut s = *block;
    for round in 0..last {
        let keyed = add_round_key(&s, schedule, round);
        let boxed = boxes.sub_bytes(&keyed);
        let shifted = shift_rows(&boxed);
        s = if round + 1 < last { mix_columns(&shifted) } else { add_round_key(&shifted, schedule, last) };
        states.extend([keyed, boxed, shifted, s, s]);
    }
    states
}

/// Six of each round of INVCIPHER, and one before: the first round key stands there too, and the last round mixes no columns.
fn record_inv_cipher(boxes: &Boxes, schedule: &[u8], block: &State) -> Vec<State> {
    let last = rounds(schedule);
    let mut s = add_round_key(block, schedule, last);
    let mut states = vec![*block, s];
    for round in (0..last).rev() {
        let unshifted = inv_shift_rows(&s);
        let unboxed = boxes.inv_sub_bytes(&unshifted);
        let keyed = add_round_key(&unboxed, schedule, round);
        states.extend([unshifted, unshifted, unboxed, keyed]);
        if round > 0 {
            s = inv_mix_columns(&keyed);
            states.extend([s, s]);
        } else {
            states.push(keyed);
        }
    }
    states
}
