//! What the calls with a schedule refuse, and the masked ones over one block in which order.

use super::*;
use crate::{decrypt, encrypt, expand_key, record_plain};
use Refusal::*;

const OFFSETS: [u8; 16] = [7, 7, 0, 3, 12, 15, 15, 1, 0, 9, 4, 4, 4, 10, 2, 8];

/// Form 1 has retired, and is refused like those that never were.
#[test]
fn form_0_alone_is_taken() {
    let (schedule, block, masks) = ([3; 240], [5; 16], [7; 16]);
    for form in 0..=255 {
        let mut outputs = [[0x55; 16]; 3];
        let [published, many, masked] = &mut outputs;
        let replies = [
            encrypt_published(&schedule, &block, published, &OFFSETS, 5, form),
            encrypt_blocks(&schedule, &block, many, &[11], 5, form),
            encrypt_masked(&schedule, &block, masked, &masks, &OFFSETS, 5, form),
        ];
        let expected = if form == 0 { Ok(()) } else { Err(FormUnknown) };
        assert_eq!(replies, [expected; 3], "form {form}");
        assert_eq!(outputs.map(|output| output == [0x55; 16]), [form != 0; 3], "form {form}");
    }
}

/// What a call is lent, and what it writes to.
struct Lent {
    schedule: Vec<u8>,
    input: Vec<u8>,
    masks: Vec<u8>,
    offsets: Vec<u8>,
    step: u8,
    form: u8,
    output: Vec<u8>,
    /// For the record of an encryption, and of a decryption.
    states: [Vec<u8>; 2],
}

/// How long a schedule is, the record of an encryption with it, and that of a decryption.
const LENGTHS: [[usize; 3]; 3] = [[176, 816, 976], [208, 976, 1168], [240, 1136, 1360]];

impl Lent {
    fn right() -> Lent {
        Lent::of(LENGTHS[2])
    }

    fn of([schedule, forth, back]: [usize; 3]) -> Lent {
        let [schedule, input, masks] = [schedule, 16, 16].map(|length| vec![3; length]);
        let [output, forth, back] = [16, forth, back].map(|length| vec![0x55; length]);
        Lent { schedule, input, masks, offsets: OFFSETS.into(), step: 4, form: 0, output, states: [forth, back] }
    }

    /// Spoils what a refusal is about: too little, or too much.
    fn spoil(&mut self, refusal: Refusal, too_much: bool) {
        let resize = |buffer: &mut Vec<u8>| buffer.resize(if too_much { buffer.len() + 1 } else { buffer.len() - 1 }, 0x55);
        match refusal {
            ScheduleLength => resize(&mut self.schedule),
            InputLength => resize(&mut self.input),
            OutputLength => resize(&mut self.output),
            MasksLength => resize(&mut self.masks),
            OffsetPerByte => resize(&mut self.offsets),
            RecordLength => self.states.iter_mut().for_each(resize),
            OffsetRange => self.offsets[14] = if too_much { 255 } else { 16 },
            StepWrong => self.step = if too_much { 16 } else { 3 },
            FormUnknown => self.form = if too_much { 255 } else { 1 },
            other => unreachable!("no call over one block is refused with {other:?}"),
        }
    }
}

type Call = fn(&mut Lent) -> Result<(), Refusal>;

/// Each call over one block with its refusals in their order.
const CALLS: [(Call, &[Refusal]); 6] = [
    (
        |l| encrypt_published(&l.schedule, &l.input, &mut l.output, &l.offsets, l.step, l.form),
        &[ScheduleLength, InputLength, OutputLength, OffsetPerByte, OffsetRange, StepWrong, FormUnknown],
    ),
    (
        |l| encrypt_masked(&l.schedule, &l.input, &mut l.output, &l.masks, &l.offsets, l.step, l.form),
        &[ScheduleLength, InputLength, OutputLength, MasksLength, OffsetPerByte, OffsetRange, StepWrong, FormUnknown],
    ),
    (
        |l| record_masked(&l.schedule, &l.input, &l.masks, &l.offsets, l.step, &mut l.states[0]),
        &[ScheduleLength, InputLength, MasksLength, OffsetPerByte, OffsetRange, StepWrong, RecordLength],
    ),
    (
        |l| decrypt_published(&l.schedule, &l.input, &mut l.output, &l.offsets, l.step),
        &[ScheduleLength, InputLength, OutputLength, OffsetPerByte, OffsetRange, StepWrong],
    ),
    (
        |l| decrypt_masked(&l.schedule, &l.input, &mut l.output, &l.masks, &l.offsets, l.step),
        &[ScheduleLength, InputLength, OutputLength, MasksLength, OffsetPerByte, OffsetRange, StepWrong],
    ),
    (
        |l| record_masked_decryption(&l.schedule, &l.input, &l.masks, &l.offsets, l.step, &mut l.states[1]),
        &[ScheduleLength, InputLength, MasksLength, OffsetPerByte, OffsetRange, StepWrong, RecordLength],
    ),
];

/// Whatever set of causes there is, the first of them is told, and nothing is written.
#[test]
fn calls_are_refused_in_their_order() {
    for ((call, refusals), lengths) in CALLS.into_iter().flat_map(|call| LENGTHS.map(|lengths| (call, lengths))) {
        for (set, too_much) in (0..1 << refusals.len()).flat_map(|set| [(set, false), (set, true)]) {
            let mut lent = Lent::of(lengths);
            let causes: Vec<Refusal> = (0..refusals.len()).filter(|i| set >> i & 1 == 1).map(|i| refusals[i]).collect();
            causes.iter().for_each(|cause| lent.spoil(*cause, too_much));
            assert_eq!(call(&mut lent), causes.first().map_or(Ok(()), |first| Err(*first)), "{causes:?}");
            let untouched = [lent.output, lent.states.concat()].concat().iter().all(|byte| *byte == 0x55);
            assert_eq!(untouched, !causes.is_empty(), "{causes:?}");
        }
    }
}

#[test]
fn sixteen_offsets_up_to_15_are_taken() {
    for (call, _) in CALLS {
        for length in 0..40 {
            let offsets = vec![if length < 20 { 15 } else { 16 }; length];
            let expected = if length == 16 { Ok(()) } else { Err(OffsetPerByte) };
            assert_eq!(call(&mut Lent { offsets, ..Lent::right() }), expected, "{length} offsets");
        }
        for (place, offset) in (0..16).flat_map(|place| [0, 15, 16, 17, 255].map(|offset| (place, offset))) {
            let mut lent = Lent::right();
            lent.offsets[place] = offset;
            let expected = if offset < 16 { Ok(()) } else { Err(OffsetRange) };
            assert_eq!(call(&mut lent), expected, "offset {offset} for byte {place}");
        }
    }
}

#[test]
fn steps_1_and_4_to_15_are_taken() {
    for step in 0..=255 {
        let expected = if matches!(step, 1 | 4..=15) { Ok(()) } else { Err(StepWrong) };
        for (call, _) in CALLS {
            assert_eq!(call(&mut Lent { step, ..Lent::right() }), expected, "step {step}");
        }
    }
}

/// The record of an encryption is too short for a decryption with the same schedule, and may be right for one with another.
#[test]
fn each_schedule_and_direction_has_its_own_record() {
    for ([schedule, forth, back], length) in
        LENGTHS.into_iter().flat_map(|lengths| (0..1400).map(move |length| (lengths, length)))
    {
        let (schedule, mut states) = (vec![3; schedule], vec![0; length]);
        let expected = |right| if length == right { Ok(()) } else { Err(RecordLength) };
        assert_eq!(record_plain(&schedule, &[5; 16], &mut states), expected(forth));
        assert_eq!(record_masked(&schedule, &[5; 16], &[7; 16], &OFFSETS, 5, &mut states), expected(forth));
        assert_eq!(record_masked_decryption(&schedule, &[5; 16], &[7; 16], &OFFSETS, 5, &mut states), expected(back));
    }
}

/// Every length of a schedule, alone and with many blocks.
#[test]
fn schedules_of_three_lengths_are_taken() {
    for length in 0..300 {
        let (schedule, mut output) = (vec![3; length], [0; 32]);
        let expected = if [176, 208, 240].contains(&length) { Ok(()) } else { Err(ScheduleLength) };
        assert_eq!(encrypt(&schedule, &[5; 16], &mut output[..16]), expected, "{length}");
        assert_eq!(decrypt(&schedule, &[5; 16], &mut output[..16]), expected, "{length}");
        assert_eq!(encrypt_blocks(&schedule, &[5; 32], &mut output, &[0, 15], 5, 0), expected, "{length}");
        let keys = [(16, 176), (24, 208), (32, 240)];
        for key in 0..40 {
            let expected = match keys.iter().find(|(its, _)| *its == key) {
                None => Err(KeyLength),
                Some((_, right)) if *right != length => Err(ScheduleLength),
                Some(_) => Ok(()),
            };
            assert_eq!(expand_key(&vec![7; key], &mut vec![0; length]), expected, "{key} and {length}");
        }
    }
}
