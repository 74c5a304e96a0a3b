//! What a call is lent: buffers between guard bytes, and numbers.

use crate::counts::Counted;
use crate::random::Random;

const GUARD: usize = 16;

/// A buffer with guard bytes before and after it, at any alignment.
#[derive(Clone, PartialEq)]
pub struct Buffer {
    bytes: Vec<u8>,
    start: usize,
    end: usize,
}

impl Buffer {
    pub fn new(random: &mut Random, body: &[u8]) -> Buffer {
        let start = GUARD + random.below(GUARD);
        let end = start + body.len();
        let mut bytes = random.bytes(end + GUARD);
        bytes[start..end].copy_from_slice(body);
        Buffer { bytes, start, end }
    }

    pub fn lent(&self) -> &[u8] {
        &self.bytes[self.start..self.end]
    }

    pub fn lent_mut(&mut self) -> &mut [u8] {
        &mut self.bytes[self.start..self.end]
    }

    /// The sixteen bytes that are lent.
    pub fn sixteen(&self) -> [u8; 16] {
        self.lent().try_into().expect("sixteen bytes")
    }

    /// Any bytes of a length.
    pub fn any(random: &mut Random, length: usize) -> Buffer {
        let body = random.bytes(length);
        Buffer::new(random, &body)
    }

    /// Changes one bit, of the lent bytes or of their guards.
    pub fn spoil(&mut self, random: &mut Random) {
        let place = random.below(self.bytes.len());
        self.bytes[place] ^= 1 << random.below(8);
    }
}

/// All that any call may be lent. A call uses some of it and must leave the rest alone.
#[derive(Clone)]
pub struct Lent {
    pub key: Buffer,
    pub schedule: Buffer,
    pub input: Buffer,
    pub output: Buffer,
    pub masks: Buffer,
    pub states: Buffer,
    /// A sheet to read, and a buffer to write one to.
    pub sheet: Buffer,
    pub blank: Buffer,
    /// For many blocks, the offset of each, and for one, that of each byte.
    pub offsets: Buffer,
    pub byte_offsets: Buffer,
    /// Key data, and a wrapped key.
    pub key_data: Buffer,
    pub wrapped: Buffer,
    /// A transport packet, the buffer for another, and the list of pipes.
    pub packet: Buffer,
    pub packet_out: Buffer,
    pub pipes: Buffer,
    pub offset: u8,
    pub step: u8,
    pub form: u8,
    pub odd: bool,
    /// What is counted of the masks, and a round to count it in, of which a call is not told.
    pub counted: Counted,
    pub round: u8,
}

impl Lent {
    fn buffers(&self) -> [(&'static str, &Buffer); 15] {
        [
            ("key", &self.key),
            ("schedule", &self.schedule),
            ("input", &self.input),
            ("output", &self.output),
            ("masks", &self.masks),
            ("states", &self.states),
            ("sheet", &self.sheet),
            ("blank", &self.blank),
            ("offsets", &self.offsets),
            ("offsets of bytes", &self.byte_offsets),
            ("key data", &self.key_data),
            ("wrapped key", &self.wrapped),
            ("packet", &self.packet),
            ("packet written", &self.packet_out),
            ("list of pipes", &self.pipes),
        ]
    }

    /// The first buffer that is another than its like, be it in a guard byte.
    pub fn first_difference(&self, other: &Lent) -> Option<&'static str> {
        let mut pairs = self.buffers().into_iter().zip(other.buffers());
        pairs.find(|(mine, its)| mine.1 != its.1).map(|(mine, _)| mine.0)
    }

    /// Changes one bit of one buffer.
    pub fn spoil(&mut self, random: &mut Random) {
        let buffers = [
            &mut self.key,
            &mut self.schedule,
            &mut self.input,
            &mut self.output,
            &mut self.masks,
            &mut self.states,
            &mut self.sheet,
            &mut self.blank,
            &mut self.offsets,
            &mut self.byte_offsets,
            &mut self.key_data,
            &mut self.wrapped,
            &mut self.packet,
            &mut self.packet_out,
            &mut self.pipes,
        ];
        let which = random.below(buffers.len());
        buffers[which].spoil(random);
    }
}
