//! Draws what is counted of a mask table.

use crate::counts::Counted;
use crate::random::Random;

/// Mostly what the report has a line for; at times one number of it is outside, or two bits do not rise, or all is any.
pub fn counted(random: &mut Random) -> Counted {
    let mut counted = counted_inside(random);
    match random.below(48) {
        0 => counted.row = 0,
        1 => counted.row = at_least(random, 8),
        2 => counted.byte = at_least(random, 16),
        3 => counted.bits[2] = at_least(random, 8),
        4 => counted.bits[1] = counted.bits[random.below(3)],
        5 => counted.bits.rotate_left(1 + random.below(2)),
        6 => counted.pattern = at_least(random, 8),
        7 => {
            let bits = [(); 3].map(|()| random.byte());
            counted = Counted { row: random.byte(), byte: random.byte(), bits, pattern: random.byte() };
        }
        _ => {}
    }
    counted
}

/// Often the least itself.
fn at_least(random: &mut Random, least: usize) -> u8 {
    let further = [0, random.below(256 - least)];
    (least + further[random.below(2)]) as u8
}

/// Often in row 5: in all others a byte is under each mask at one offset, so that these count alike.
pub fn counted_inside(random: &mut Random) -> Counted {
    let x = random.below(6);
    let y = x + 1 + random.below(6 - x);
    let z = y + 1 + random.below(7 - y);
    Counted {
        row: [5, 1 + random.below(7) as u8][random.below(2)],
        byte: random.below(16) as u8,
        bits: [x, y, z].map(|bit| bit as u8),
        pattern: random.below(8) as u8,
    }
}
