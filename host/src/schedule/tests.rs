//! Schedules of the three lengths, and what runs with them give.

use super::{Block, Schedule};
use crate::key::Rounds;
use crate::masks::{Masks, Offset, Step};
use crate::offsets::Offsets;
use crate::refusal::Refusal;

/// FIPS 197, C.1, C.2 and C.3, under two mask tables, at one offset and at sixteen.
#[test]
fn masked_runs_are_the_standard_s_both_ways() {
    let key: [u8; 32] = std::array::from_fn(|i| i as u8);
    let plaintext = 0x00112233445566778899aabbccddeeff_u128.to_be_bytes();
    let others = Masks::new(plaintext);
    let ciphertexts = [
        (16, 0x69c4e0d86a7b0430d8cdb78070b4c55a_u128),
        (24, 0xdda97ca4864cdfe06eaf70a0ec0d7191),
        (32, 0x8ea2b7ca516745bfeafc49904b496089),
    ];
    for (length, ciphertext) in ciphertexts {
        let (schedule, ciphertext) = (Schedule::expand_slice(&key[..length]).unwrap(), ciphertext.to_be_bytes());
        assert_eq!((schedule.encrypt(&plaintext), schedule.decrypt(&ciphertext)), (ciphertext, plaintext));
        for (offset, step) in Offset::all().flat_map(|offset| Step::all().map(move |step| (offset, step))) {
            let mixed = std::array::from_fn(|i| ((usize::from(offset.number()) + 5 * i * i + 3 * i) % 16) as u8);
            for offsets in [Offsets::one(offset), Offsets::new(mixed).unwrap()] {
                assert_eq!(schedule.encrypt_published(&plaintext, offsets, step), ciphertext);
                assert_eq!(schedule.encrypt_masked(&plaintext, &others, offsets, step), ciphertext);
                assert_eq!(schedule.decrypt_published(&ciphertext, offsets, step), plaintext);
                assert_eq!(schedule.decrypt_masked(&ciphertext, &others, offsets, step), plaintext);
            }
        }
    }
}

/// Of keys, and of schedules. The last word of a schedule is from FIPS 197, A.1, A.2 and A.3.
#[test]
fn three_lengths_are_taken() {
    for length in 0..=300 {
        let rounds = match length {
            16 => Some(Rounds::Ten),
            24 => Some(Rounds::Twelve),
            32 => Some(Rounds::Fourteen),
            _ => None,
        };
        let expanded = Schedule::expand_slice(&vec![7; length]);
        assert_eq!(expanded.map(|schedule| schedule.rounds()), rounds.ok_or(Refusal::KeyLength), "a key of {length} bytes");
        let rounds = match length {
            176 => Some(Rounds::Ten),
            208 => Some(Rounds::Twelve),
            240 => Some(Rounds::Fourteen),
            _ => None,
        };
        let taken = Schedule::try_from(&vec![7; length][..]);
        assert_eq!(taken.map(|schedule| schedule.rounds()), rounds.ok_or(Refusal::ScheduleLength), "{length} bytes");
    }
    let keys = [
        (0x2b7e151628aed2a6abf7158809cf4f3c_u128.to_be_bytes().to_vec(), 0xb6630ca6_u32),
        ([0x8e73b0f7da0e6452_u64, 0xc810f32b809079e5, 0x62f8ead2522c6b7b].map(u64::to_be_bytes).concat(), 0x01002202),
        (
            [0x603deb1015ca71be_u64, 0x2b73aef0857d7781, 0x1f352c073b6108d7, 0x2d9810a30914dff4].map(u64::to_be_bytes).concat(),
            0x706c631e,
        ),
    ];
    for (key, last_word) in keys {
        let schedule = Schedule::expand_slice(&key).unwrap();
        assert!(schedule.as_bytes().starts_with(&key) && schedule.as_bytes().ends_with(&last_word.to_be_bytes()));
        assert_eq!(Schedule::try_from(schedule.as_bytes()), Ok(schedule));
    }
}

/// However a schedule is given, and keys that begin alike make other blocks where one is longer.
#[test]
fn arrays_are_as_slices() {
    let of_arrays = [Schedule::expand(&[7; 16]), Schedule::expand(&[7; 24]), Schedule::expand(&[7; 32])];
    for (schedule, length) in of_arrays.iter().zip([16, 24, 32]) {
        assert_eq!(Schedule::expand_slice(&vec![7; length]).as_ref(), Ok(schedule));
    }
    let made = of_arrays.map(|schedule| schedule.encrypt(&[9; 16]));
    assert!(made[0] != made[1] && made[1] != made[2] && made[0] != made[2]);
    for (schedule, length) in
        [Schedule::new([7; 176]), Schedule::new([7; 208]), Schedule::new([7; 240])].iter().zip([176, 208, 240])
    {
        assert_eq!(Schedule::try_from(&vec![7; length][..]).as_ref(), Ok(schedule));
    }
}

/// Around the 256 blocks of a call, each block is what a call of its own gives.
#[test]
fn many_blocks_are_as_single_ones() {
    let schedules = [Schedule::expand(&[7; 16]), Schedule::expand(&[7; 24]), Schedule::expand(&[7; 32])];
    for (count, schedule) in [0, 1, 255, 256, 257, 600].iter().flat_map(|count| schedules.iter().map(move |its| (*count, its))) {
        let block = |i: usize| -> Block { std::array::from_fn(|k| (i * 31 + k) as u8) };
        let offset = |i: usize| Offset::new((i * 7 % 16) as u8).unwrap();
        let blocks: Vec<(Block, Offset)> = (0..count).map(|i| (block(i), offset(i))).collect();
        for step in [1, 4].map(|step| Step::new(step).unwrap()) {
            let single = blocks.iter().map(|(block, offset)| schedule.encrypt_published(block, *offset, step));
            assert_eq!(schedule.encrypt_blocks(&blocks, step), single.collect::<Vec<Block>>());
        }
    }
}
