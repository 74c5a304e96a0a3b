//! The mask sheet, the fitness of masks and the sorting of replies, as the scope states them.

use std::array::from_fn;

/// The sheet of sixteen masks and a step.
pub fn written(masks: &[u8], step: u8) -> Vec<u8> {
    match step {
        1 => [b"MSK", &[0, 1][..], masks].concat(),
        _ => [b"MSK", &[0, 2][..], masks, &[step]].concat(),
    }
}

/// The step of a sheet: version 1 has none of its own.
pub fn step(sheet: &[u8]) -> u8 {
    match sheet[4] {
        1 => 1,
        _ => sheet[21],
    }
}

/// The masks and the step of a sheet, or the number with which it is refused. Its length is judged twice: for a mark and a version,
/// and then for what the version asks.
pub fn read(sheet: &[u8]) -> Result<([u8; 16], u8), u8> {
    if sheet.len() < 5 {
        return Err(11);
    }
    let (head, body) = sheet.split_at(5);
    let masks = || from_fn(|i| body[i]);
    match (&head[..3], &head[3..], body.len()) {
        (b"MSK", [0, 1], 16) => Ok((masks(), 1)),
        (b"MSK", [0, 2], 17) if matches!(body[16], 4..=15) => Ok((masks(), body[16])),
        (b"MSK", [0, 2], 17) => Err(15),
        (b"MSK", [0, 1 | 2], _) => Err(11),
        (b"MSK", _, _) => Err(13),
        _ => Err(12),
    }
}

/// 1 where any three bit positions show each of their eight patterns in exactly two of the masks, otherwise 0.
pub fn fitness(masks: &[u8]) -> u8 {
    let triples = 0..8 * 8 * 8;
    let even = triples.map(|n| [n % 8, n / 8 % 8, n / 64]).filter(all_differ).all(|bits| is_even(masks, bits));
    u8::from(even)
}

fn all_differ([x, y, z]: &[u32; 3]) -> bool {
    x != y && y != z && x != z
}

fn is_even(masks: &[u8], bits: [u32; 3]) -> bool {
    let shown = |mask: u8| bits.map(|bit| mask & 1 << bit != 0);
    let twice = |pattern: [bool; 3]| masks.iter().filter(|mask| shown(**mask) == pattern).count() == 2;
    (0..8).all(|n| twice([n & 1 != 0, n & 2 != 0, n & 4 != 0]))
}

/// 0 go on, 1 caller fault, 2 data fault.
pub fn sorted(number: u8) -> u8 {
    match number {
        0 => 0,
        9..=13 | 18 | 20 | 21 | 23 => 2,
        _ => 1,
    }
}
