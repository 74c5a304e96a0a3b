//! A covered byte, inverted in the tower of document 000: what its formulas come to on the way, each value under its mask.

use crate::fault::Fault;
use crate::words::{Given, Words};
use std::io::Write;

pub fn tower(words: &mut Words, out: &mut dyn Write) -> Result<(), Fault> {
    let (covered, mask) = (words.bytes("covered byte")?, words.bytes("mask")?);
    words.end()?;
    let (covered, mask) = (one(&covered)?, one(&mask)?);
    writeln!(out, "{:<27}  plain  mask  covered  mask's name", "after")?;
    for row in rows(covered, mask) {
        let [plain, under, seen] = [row.plain, row.mask, row.plain ^ row.mask].map(|value| match row.half {
            true => format!("{value:x}"),
            false => format!("{value:02x}"),
        });
        writeln!(out, "{:<27}  {plain:<5}  {under:<4}  {seen:<7}  {}", row.after, row.name)?;
    }
    Ok(())
}

fn one(given: &Given) -> Result<u8, Fault> {
    match given.bytes[..] {
        [byte] => Ok(byte),
        _ => Err(Fault::caller(format!("{}, and one is expected", given.seen()))),
    }
}

struct Row {
    after: &'static str,
    half: bool,
    plain: u8,
    mask: u8,
    name: &'static str,
}

/// The last is what the library answers; all before it are worked out here.
fn rows(covered: u8, mask: u8) -> [Row; 8] {
    let row = |after, half, plain, mask, name| Row { after, half, plain, mask, name };
    let (t, m) = (to_tower(covered ^ mask), to_tower(mask));
    let (th, tl, mh, ml) = (t >> 4, t & 15, m >> 4, m & 15);
    let norm = times(times(th, th), 0xe) ^ times(th, tl) ^ times(tl, tl);
    let inverse = inverse(norm);
    let (high, low) = (times(th, inverse), times(th ^ tl, inverse));
    let answer = slipgrease::tower_inverse(covered, mask);
    [
        row("the byte", false, covered ^ mask, mask, "r"),
        row("the change of basis", false, t, m, "t(r), r in the tower"),
        row("(4.7), the norm", true, norm, mh, "the higher half of t(r)"),
        row("(4.8), its inverse", true, inverse, mh, "the higher half of t(r)"),
        row("the exchange of its mask", true, inverse, ml, "the lower half of t(r)"),
        row("(4.9), the higher half", true, high, mh, "the higher half of t(r)"),
        row("(4.10), the lower half", true, low, ml, "the lower half of t(r)"),
        row("the change back: the answer", false, answer ^ mask, mask, "r"),
    ]
}

/// The change of basis: each bit brings its image.
fn to_tower(a: u8) -> u8 {
    let images = [0x01, 0x5e, 0x24, 0x2b, 0x4e, 0x97, 0x44, 0xd1];
    (0..).zip(images).fold(0, |sum, (bit, image)| sum ^ ((a >> bit & 1) * image))
}

/// The product of two halves modulo x^4 + x + 1.
fn times(a: u8, b: u8) -> u8 {
    (0..4).rev().fold(0, |sum, bit| {
        let doubled = sum << 1;
        doubled ^ ((doubled >> 4) * 0x13) ^ (a * (b >> bit & 1))
    })
}

/// The half whose product with it is 1, and 0 for 0.
fn inverse(a: u8) -> u8 {
    (1..16).find(|&b| times(a, b) == 1).unwrap_or(0)
}
