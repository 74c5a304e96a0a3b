//! The calls that take a key or its schedule, compared on every length of a schedule, beside those of keys and of records: which of
//! two lengths is right depends on the other.

use crate::cases::draw;
use crate::compare::Trial;
use crate::lent::{Buffer, Lent};
use crate::random::Random;
use crate::replies::{record_length, schedule_length, Cause, KEYS, SCHEDULES};

/// All up to 272, and some that are right in their lowest sixteen bits.
fn schedules() -> impl Iterator<Item = usize> {
    (0..=272).chain(SCHEDULES.map(|length| 65_536 + length))
}

/// Those of keys and the lengths about them, those of schedules, and some that are right in their lowest eight and sixteen bits.
const KEY_LENGTHS: [usize; 20] =
    [0, 1, 8, 15, 16, 17, 20, 23, 24, 25, 28, 31, 32, 33, 40, 176, 240, 256 + 16, 256 + 24, 65_536 + 32];

/// Those of records, a byte, a state and a round about them, none at all, and one that is right in its lowest sixteen bits.
fn records() -> impl Iterator<Item = usize> {
    let about = |length: usize| [length - 96, length - 80, length - 16, length - 1, length, length + 1, length + 16];
    [816, 976, 1136, 1168, 1360].into_iter().flat_map(about).chain([0, 65_536 + 976])
}

/// How often what is taken is tried, with another key and block each time.
const TIMES_TAKEN: usize = 64;

/// Whether the call takes a key or a schedule, and so has been compared.
pub fn compare(trial: &mut Trial, random: &mut Random) -> bool {
    let refusals = trial.call.refusals;
    match refusals.first() {
        Some(Cause::Key) => beside_keys(trial, random),
        Some(Cause::Schedule) if refusals.ends_with(&[Cause::States]) => beside_records(trial, random),
        Some(Cause::Schedule) if refusals.ends_with(&[Cause::DecryptionStates]) => beside_records(trial, random),
        Some(Cause::Schedule | Cause::FullSchedule) => alone(trial, random),
        _ => return false,
    }
    true
}

fn times(is_taken: bool) -> usize {
    if is_taken {
        TIMES_TAKEN
    } else {
        1
    }
}

fn beside_keys(trial: &mut Trial, random: &mut Random) {
    for (key, schedule) in KEY_LENGTHS.into_iter().flat_map(|key| schedules().map(move |schedule| (key, schedule))) {
        for _ in 0..times(schedule_length(key) == Some(schedule)) {
            let lent = draw(random, trial.boxes, trial.call.refusals, &[]);
            let (key, schedule) = (Buffer::any(random, key), Buffer::any(random, schedule));
            trial.case(random, Lent { key, schedule, ..lent });
        }
    }
    for key in KEYS {
        bits(trial, random, key);
    }
}

/// Keys of a length with one bit alone, each bit by itself.
fn bits(trial: &mut Trial, random: &mut Random, key: usize) {
    for bit in 0..8 * key {
        let mut lent = draw(random, trial.boxes, trial.call.refusals, &[]);
        let mut bytes = vec![0; key];
        bytes[bit / 8] = 1 << (bit % 8);
        lent.key = Buffer::new(random, &bytes);
        lent.schedule = Buffer::any(random, schedule_length(key).expect("a key that is taken"));
        trial.case(random, lent);
    }
}

fn beside_records(trial: &mut Trial, random: &mut Random) {
    for schedule in schedules() {
        let right = record_length(trial.call.refusals, schedule);
        for states in records() {
            for _ in 0..times(right == Some(states)) {
                let lent = draw(random, trial.boxes, trial.call.refusals, &[]);
                let (schedule, states) = (Buffer::any(random, schedule), Buffer::any(random, states));
                trial.case(random, Lent { schedule, states, ..lent });
            }
        }
    }
}

fn alone(trial: &mut Trial, random: &mut Random) {
    for length in schedules() {
        for _ in 0..times(SCHEDULES.contains(&length)) {
            let lent = draw(random, trial.boxes, trial.call.refusals, &[]);
            let schedule = Buffer::any(random, length);
            trial.case(random, Lent { schedule, ..lent });
        }
    }
}
