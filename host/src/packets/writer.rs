//! A stream of packets, written.

use super::{Stream, LENGTH};
use crate::refusal::Refusal;
use std::error::Error;
use std::fmt;
use std::io::{self, Write};
use std::ops::ControlFlow;

/// Takes a stream of packets by [`Write`], in pieces of any length, and writes what becomes of it. Whatever is whole by a piece
/// is written at once, so that it stands in a live pipe.
///
/// A packet that is refused is an error of the kind `InvalidData`, which holds a [`RefusedPacket`]. All packets before it have
/// been written then, and nothing more is taken.
///
/// ```
/// use slipgrease::{Parity, Pipes, Way};
/// use std::io;
///
/// let mut bytes = [0; 7 * 498];
/// for k in 0..7 {
///     bytes[498 * k + 1] = 0x10 + k as u8;
/// }
/// let pipes = Pipes::try_from(&bytes[..]).unwrap();
/// let stream = [[0x47, 0, 0x13, 0x10].as_slice(), &[0; 184]].concat().repeat(1000);
///
/// let mut scrambler = pipes.writer(Way::Scramble(Parity::Even), Vec::new());
/// io::copy(&mut &stream[..], &mut scrambler)?;
/// let scrambled = scrambler.finish()?;
///
/// let mut descrambler = pipes.writer(Way::Descramble, Vec::new());
/// io::copy(&mut &scrambled[..], &mut descrambler)?;
/// assert_eq!(descrambler.finish()?, stream);
/// # Ok::<(), io::Error>(())
/// ```
pub struct PacketWriter<'a, W> {
    stream: Stream<'a>,
    out: W,
    packets: u64,
    refused: Option<RefusedPacket>,
}

impl<'a, W: Write> PacketWriter<'a, W> {
    pub(super) fn new(stream: Stream<'a>, out: W) -> PacketWriter<'a, W> {
        PacketWriter { stream, out, packets: 0, refused: None }
    }

    /// Ends the stream and gives back what was written to, flushed. A last piece shorter than a packet is refused as such.
    pub fn finish(mut self) -> io::Result<W> {
        self.flush()?;
        let number = self.packets;
        self.refused.map_or(Ok(()), Err)?;
        self.stream.end().map_err(|refusal| RefusedPacket { number, refusal })?;
        Ok(self.out)
    }
}

impl<W: Write> Write for PacketWriter<'_, W> {
    fn write(&mut self, piece: &[u8]) -> io::Result<usize> {
        let PacketWriter { stream, out, packets, refused } = self;
        if refused.is_none() {
            let (made, ended) = stream.take(piece, |_, packet| match packet {
                Ok(_) => {
                    *packets += 1;
                    ControlFlow::Continue(())
                }
                Err(refusal) => ControlFlow::Break(RefusedPacket { number: *packets, refusal }),
            });
            if let ControlFlow::Break(packet) = ended {
                *refused = Some(packet);
            }
            out.write_all(made)?;
        }
        refused.map_or(Ok(piece.len()), |packet| Err(packet.into()))
    }

    fn flush(&mut self) -> io::Result<()> {
        self.out.flush()
    }
}

/// Says nothing of the bytes.
impl<W> fmt::Debug for PacketWriter<'_, W> {
    fn fmt(&self, f: &mut fmt::Formatter) -> fmt::Result {
        write!(f, "PacketWriter({:?}, {} packets, ..)", self.stream, self.packets)
    }
}

/// A packet of a stream that was refused.
///
/// ```
/// use slipgrease::{Refusal, RefusedPacket};
///
/// let refused = RefusedPacket { number: 3, refusal: Refusal::SyncLost };
/// assert_eq!(refused.to_string(), "packet 3, byte 564: the packet does not begin with 47 (reply 20, SYNC_LOST)");
/// ```
#[derive(Clone, Copy, Debug, PartialEq, Eq, Hash)]
pub struct RefusedPacket {
    /// How many packets came before it.
    pub number: u64,
    /// Why.
    pub refusal: Refusal,
}

impl fmt::Display for RefusedPacket {
    fn fmt(&self, f: &mut fmt::Formatter) -> fmt::Result {
        write!(f, "packet {}, byte {}: {}", self.number, u128::from(self.number) * LENGTH as u128, self.refusal)
    }
}

impl Error for RefusedPacket {
    fn source(&self) -> Option<&(dyn Error + 'static)> {
        Some(&self.refusal)
    }
}

impl From<RefusedPacket> for io::Error {
    fn from(packet: RefusedPacket) -> io::Error {
        io::Error::new(io::ErrorKind::InvalidData, packet)
    }
}
