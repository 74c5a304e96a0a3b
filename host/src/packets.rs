//! Transport packets, scrambled and descrambled by a list of seven pipes.

mod stream;
mod writer;

pub use stream::Stream;
pub use writer::{PacketWriter, RefusedPacket};

use crate::refusal::Refusal;
use crate::schedule::{Block, Schedule};
use crate::slices;
use crate::wiped::Wiped;
use std::fmt;
use std::io::Write;

/// How many bytes a packet has.
const LENGTH: usize = 188;

/// A transport packet of ISO/IEC 13818-1.
pub type Packet = [u8; LENGTH];

/// Which of a pipe's two schedules scrambles.
#[derive(Clone, Copy, Debug, PartialEq, Eq, PartialOrd, Ord, Hash)]
pub enum Parity {
    /// The even schedule, which scrambling bits 10 name.
    Even,
    /// The odd schedule, which scrambling bits 11 name.
    Odd,
}

/// What is done with packets.
#[derive(Clone, Copy, Debug, PartialEq, Eq, PartialOrd, Ord, Hash)]
pub enum Way {
    /// They are scrambled, as [`Pipes::scramble`] does.
    Scramble(Parity),
    /// They are descrambled, as [`Pipes::descramble`] does.
    Descramble,
}

/// One of the seven pipes.
#[derive(Clone, PartialEq, Eq)]
pub struct Pipe {
    /// The PID of its packets. A list takes 0010 to 1ffe.
    pub pid: u16,
    /// The schedule for scrambling bits 10. A list takes that of a 32-byte key.
    pub even: Schedule,
    /// The schedule for scrambling bits 11, likewise.
    pub odd: Schedule,
    /// What the first block of every packet is chained to.
    pub start: Block,
}

/// A list of seven pipes that the library takes: each has a PID of its own, 0010 to 1ffe. It is wiped when it is dropped.
///
/// ```
/// use slipgrease::{Parity, Pipe, Pipes, Refusal, Schedule};
///
/// let mut pipes: [Pipe; 7] = std::array::from_fn(|k| Pipe {
///     pid: 0x100 + k as u16,
///     even: Schedule::expand(&[k as u8; 32]),
///     odd: Schedule::expand(&[0x80 + k as u8; 32]),
///     start: [0; 16],
/// });
/// let list = Pipes::new(&pipes)?;
///
/// let mut packet = [0xff; 188];
/// packet[..4].copy_from_slice(&[0x47, 0x01, 0x03, 0x10]);
/// let scrambled = list.scramble(&packet, Parity::Odd)?;
/// assert_eq!(scrambled[..4], [0x47, 0x01, 0x03, 0xd0]);
/// assert_eq!(list.descramble(&scrambled), Ok(packet));
/// assert_eq!(list.scramble(&scrambled, Parity::Odd), Err(Refusal::BitsWrong));
///
/// pipes[6].pid = 0x103;
/// assert_eq!(Pipes::new(&pipes), Err(Refusal::PipesWrong));
/// # Ok::<(), slipgrease::Refusal>(())
/// ```
#[derive(Clone, PartialEq, Eq)]
pub struct Pipes(Wiped);

/// The PID 1fff is in no list, so that of the library's checks a call with this packet meets only the list's.
const NULL_PACKET: Packet = {
    let mut packet = [0xff; LENGTH];
    packet[0] = 0x47;
    packet[1] = 0x1f;
    packet[3] = 0x10;
    packet
};

impl Pipes {
    /// The list of seven pipes.
    ///
    /// Refused: the schedule of a key under 32 bytes, with which the list is too short, a PID outside 0010 to 1ffe, or the same PID
    /// twice.
    pub fn new(pipes: &[Pipe; 7]) -> Result<Pipes, Refusal> {
        let pids: Vec<[u8; 2]> = pipes.iter().map(|pipe| pipe.pid.to_be_bytes()).collect();
        let parts =
            pids.iter().zip(pipes).flat_map(|(pid, pipe)| [&pid[..], pipe.even.as_bytes(), pipe.odd.as_bytes(), &pipe.start]);
        let mut bytes = Wiped::zeros(parts.clone().map(<[u8]>::len).sum());
        bytes.iter_mut().zip(parts.flatten()).for_each(|(place, byte)| *place = *byte);
        Pipes::judged(bytes)
    }

    /// The list, if the library takes it.
    fn judged(bytes: Wiped) -> Result<Pipes, Refusal> {
        slices::descramble(&NULL_PACKET, &mut [0; LENGTH], &bytes).map(|()| Pipes(bytes))
    }

    /// The 3,486 bytes that the library takes, pipe k from 498 k on: its PID in two bytes, the higher first, its even schedule,
    /// its odd schedule and its starting block.
    pub fn as_bytes(&self) -> &[u8] {
        &self.0
    }

    /// The packet scrambled, or a copy of it: where its PID is not listed, and where its payload is under 16 bytes.
    ///
    /// Refused, in this order: sync byte not 47; and for a listed PID only, adaptation field wrong, scrambling bits not 00.
    pub fn scramble(&self, packet: &Packet, parity: Parity) -> Result<Packet, Refusal> {
        self.made(Way::Scramble(parity), packet)
    }

    /// The packet descrambled, or a copy of it: where its PID is not listed, and where its scrambling bits are 00.
    ///
    /// Refused, in this order: sync byte not 47; and for a listed PID only, adaptation field wrong, scrambling bits 01, or 10 or
    /// 11 over a payload under 16 bytes or none.
    pub fn descramble(&self, packet: &Packet) -> Result<Packet, Refusal> {
        self.made(Way::Descramble, packet)
    }

    /// A stream of packets that comes in pieces of any length.
    #[must_use]
    pub fn stream(&self, way: Way) -> Stream<'_> {
        Stream::new(self, way)
    }

    /// A writer that takes a stream of packets, in pieces of any length, and writes to `out` what becomes of it.
    #[must_use]
    pub fn writer<W: Write>(&self, way: Way, out: W) -> PacketWriter<'_, W> {
        PacketWriter::new(self.stream(way), out)
    }

    fn made(&self, way: Way, packet: &Packet) -> Result<Packet, Refusal> {
        let mut made = [0; LENGTH];
        self.make(way, packet, &mut made).map(|()| made)
    }

    /// The call of either way. Its lengths are the library's to judge.
    fn make(&self, way: Way, packet: &[u8], made: &mut Packet) -> Result<(), Refusal> {
        match way {
            Way::Scramble(parity) => slices::scramble(packet, made, &self.0, parity == Parity::Odd),
            Way::Descramble => slices::descramble(packet, made, &self.0),
        }
    }
}

/// The list of 3,486 bytes, which the library judges.
///
/// ```
/// use slipgrease::{Pipes, Refusal};
///
/// let mut bytes = [0; 7 * 498];
/// assert_eq!(Pipes::try_from(&bytes[..]), Err(Refusal::PipesWrong));
/// for k in 0..7 {
///     bytes[498 * k + 1] = 0x10 + k as u8;
/// }
/// assert_eq!(Pipes::try_from(&bytes[..])?.as_bytes(), bytes);
/// assert_eq!(Pipes::try_from(&bytes[1..]), Err(Refusal::PipesWrong));
/// # Ok::<(), slipgrease::Refusal>(())
/// ```
impl TryFrom<&[u8]> for Pipes {
    type Error = Refusal;

    fn try_from(bytes: &[u8]) -> Result<Pipes, Refusal> {
        Pipes::judged(Wiped::from(bytes))
    }
}

/// Says nothing of the bytes: most are keys'.
impl fmt::Debug for Pipes {
    fn fmt(&self, f: &mut fmt::Formatter) -> fmt::Result {
        f.write_str("Pipes(..)")
    }
}

/// Says the PID alone.
impl fmt::Debug for Pipe {
    fn fmt(&self, f: &mut fmt::Formatter) -> fmt::Result {
        write!(f, "Pipe({:04x}, ..)", self.pid)
    }
}

#[cfg(test)]
mod tests;
