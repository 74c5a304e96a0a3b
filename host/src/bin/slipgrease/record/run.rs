//! A run: what it is asked for with, and what is recorded of it.

use crate::cipher::{explained, Keyed, Masking};
use crate::fault::Fault;
use crate::hex::digits;
use crate::record::cover::{Cover, Start};
use crate::words::{Given, Number};
use slipgrease::{Direction, Masks, Offsets, Point, Refusal, Rounds, Schedule, Step};

/// What a run is asked for with.
pub struct Asked {
    pub direction: Direction,
    pub keyed: Keyed,
    pub block: Given,
    pub masking: Option<Masking>,
    /// What its offsets are called.
    pub offsets_called: &'static str,
}

/// What a masked run is covered with.
#[derive(Clone, Copy)]
pub struct Masked {
    pub masks: Masks,
    pub start: Start,
    pub step: Step,
}

/// Sixteen bytes for each point as they were recorded, what is under their masks, and these.
#[derive(Clone)]
pub struct Recorded {
    pub states: Vec<u8>,
    pub plain: Vec<u8>,
    pub covers: Vec<Cover>,
}

impl Recorded {
    /// What the plain states and the recorded ones differ in.
    pub fn masks(&self) -> Vec<u8> {
        xor(&self.plain, &self.states)
    }
}

pub struct Run {
    pub direction: Direction,
    pub schedule: Schedule,
    pub block: Vec<u8>,
    pub masked: Option<Masked>,
    pub recorded: Recorded,
}

impl Run {
    pub fn new(asked: Asked) -> Result<Run, Fault> {
        let Asked { direction, keyed, block, masking, offsets_called } = asked;
        let refused = |refusal| explained(refusal, &keyed, &block, masking.as_ref());
        let schedule = Schedule::try_from(&keyed.bytes[..]).map_err(refused)?;
        let mut plain = vec![0; 16 * direction.states(schedule.rounds())];
        let mut states = plain.clone();
        let masked = match &masking {
            None => None,
            Some(Masking { masks, offsets, step }) => {
                let bytes = masks.as_ref().map_or(&Masks::PUBLISHED.as_bytes()[..], |masks| &masks.bytes);
                let (offsets, step) = (offsets.bytes(), Number::step(step));
                let record = match direction {
                    Direction::Encryption => slipgrease::record_masked,
                    Direction::Decryption => slipgrease::record_masked_decryption,
                };
                record(schedule.as_bytes(), &block.bytes, bytes, &offsets, step, &mut states).map_err(refused)?;
                let taken = "the library has taken it";
                let start = Start::new(Offsets::try_from(&offsets[..]).expect(taken), offsets_called);
                let masks = Masks::try_from(bytes).expect(taken);
                Some(Masked { masks, start, step: Step::new(step).expect(taken) })
            }
        };
        record_plain(direction, schedule.as_bytes(), &block.bytes, &mut plain).map_err(refused)?;
        if masked.is_none() {
            states = plain.clone();
        }
        let cover = |point| Cover(masked.map(|Masked { start, step, .. }| (point, start, step)));
        let covers = direction.points(schedule.rounds()).map(cover).collect();
        Ok(Run { direction, schedule, block: block.bytes, masked, recorded: Recorded { states, plain, covers } })
    }

    pub fn rounds(&self) -> Rounds {
        self.schedule.rounds()
    }

    pub fn points(&self) -> impl Iterator<Item = Point> {
        self.direction.points(self.rounds())
    }

    /// As FIPS 197 names it by the bits of the key: AES-256.
    pub fn cipher(&self) -> String {
        format!("AES-{}", 8 * self.rounds().key_bytes())
    }

    /// The offset and the step, or that it is plain. Of sixteen offsets it has what they are called.
    pub fn kind(&self) -> String {
        match self.masked {
            None => "plain".to_string(),
            Some(Masked { start, step, .. }) => format!("{start}, step {step}"),
        }
    }

    /// The same with all offsets, the masks and the block.
    pub fn named(&self) -> String {
        let way = if self.direction == Direction::Decryption { "decryption, " } else { "" };
        let kind = match self.masked {
            Some(Masked { start, step, .. }) if start.one().is_none() => format!("{start} = {}, step {step}", start.offsets),
            _ => self.kind(),
        };
        let masks = match self.masked {
            None => String::new(),
            Some(Masked { masks: Masks::PUBLISHED, .. }) => ", the published masks".to_string(),
            Some(Masked { masks, .. }) => format!(", masks {}", digits(masks.as_bytes())),
        };
        format!("{way}{kind}{masks}, block {}", digits(&self.block))
    }

    /// What of a second run is not as in this one.
    pub fn another(&self, second: &Run) -> Vec<&'static str> {
        let of = |run: &Run| run.masked.map(|masked| (masked.masks, masked.start.offsets, masked.step));
        let (ours, theirs) = (of(self), of(second));
        let differs = [
            ("key", self.schedule != second.schedule),
            ("block", self.block != second.block),
            ("offset", ours.map(|its| its.1) != theirs.map(|its| its.1)),
            ("step", ours.zip(theirs).map_or(false, |(a, b)| a.2 != b.2)),
            ("masks", ours.zip(theirs).map_or(false, |(a, b)| a.0 != b.0)),
        ];
        differs.into_iter().filter(|(_, differs)| *differs).map(|(what, _)| what).collect()
    }
}

/// The library records no plain decryption by itself; but sixteen masks 00 cover nothing, at any offsets and with any step.
fn record_plain(direction: Direction, schedule: &[u8], block: &[u8], states: &mut [u8]) -> Result<(), Refusal> {
    match direction {
        Direction::Encryption => slipgrease::record_plain(schedule, block, states),
        Direction::Decryption => slipgrease::record_masked_decryption(schedule, block, &[0; 16], &[0; 16], 1, states),
    }
}

pub fn xor(a: &[u8], b: &[u8]) -> Vec<u8> {
    a.iter().zip(b).map(|(x, y)| x ^ y).collect()
}
