//! A stream of packets, in the pieces in which it comes.

use super::{Packet, Pipes, Way, LENGTH};
use crate::refusal::Refusal;
use crate::wiped::Wiped;
use std::fmt;
use std::ops::ControlFlow;

/// A stream of packets that comes in pieces of any length, as from a file or through a pipe. Every packet is made as soon as it
/// is whole, so that between two pieces there waits at most the beginning of one. What it works with is wiped when it is dropped.
///
/// ```
/// use slipgrease::{Parity, Pipes, Refusal, Way};
/// use std::ops::ControlFlow::{Break, Continue};
///
/// let mut bytes = [0; 7 * 498];
/// for k in 0..7 {
///     bytes[498 * k + 1] = 0x10 + k as u8;
/// }
/// let pipes = Pipes::try_from(&bytes[..])?;
///
/// // Two packets of PID 0013 and the beginning of a third.
/// let input = [[0x47, 0, 0x13, 0x10].as_slice(), &[0; 184]].concat().repeat(3);
/// let mut stream = pipes.stream(Way::Scramble(Parity::Even));
/// let mut output = Vec::new();
/// for piece in input[..2 * 188 + 100].chunks(75) {
///     let (made, ended) = stream.take(piece, |_, made| made.map_or_else(Break, |_| Continue(())));
///     assert_eq!(ended, Continue(()));
///     output.extend_from_slice(made);
/// }
/// assert_eq!((output.len(), stream.part().len()), (2 * 188, 100));
/// assert_eq!(output[3], 0x90);
/// # Ok::<(), Refusal>(())
/// ```
pub struct Stream<'a> {
    pipes: &'a Pipes,
    way: Way,
    /// The beginning of a packet, and how much of it is there.
    part: Wiped,
    waiting: usize,
    made: Wiped,
}

impl<'a> Stream<'a> {
    pub(super) fn new(pipes: &'a Pipes, way: Way) -> Stream<'a> {
        Stream { pipes, way, part: Wiped::zeros(LENGTH), waiting: 0, made: Wiped::zeros(0) }
    }

    /// Takes the next piece, and gives what is made of the packets that are whole by it.
    ///
    /// `judge` is given each of them, in their order, with what the library made of it or why it was refused. Where it lets a
    /// refused packet pass, that is copied. Where it breaks off, only what came before is given, and the rest of the piece is not
    /// taken.
    #[must_use = "what is made of the piece is given here alone"]
    pub fn take<B>(
        &mut self,
        piece: &[u8],
        mut judge: impl FnMut(&Packet, Result<&Packet, Refusal>) -> ControlFlow<B>,
    ) -> (&[u8], ControlFlow<B>) {
        let Stream { pipes, way, part, waiting, made } = self;
        let missing = if *waiting == 0 { 0 } else { LENGTH - *waiting };
        let (first, rest) = piece.split_at(missing.min(piece.len()));
        append(part, waiting, first);
        let packets = part[..*waiting].chunks_exact(LENGTH).chain(rest.chunks_exact(LENGTH));
        let rest = rest.chunks_exact(LENGTH).remainder();

        // It grows with the longest piece and is not cleared for the next.
        let length = LENGTH * packets.clone().count();
        if length > made.len() {
            *made = Wiped::zeros(length);
        }
        let (mut done, mut ended) = (0, ControlFlow::Continue(()));
        for packet in packets {
            let packet: &Packet = packet.try_into().expect("a whole packet");
            let made: &mut Packet = (&mut made[done..done + LENGTH]).try_into().expect("room for a packet");
            let outcome = pipes.make(*way, packet, made);
            ended = judge(packet, outcome.map(|()| &*made));
            if ended.is_break() {
                break;
            }
            if outcome.is_err() {
                *made = *packet;
            }
            done += LENGTH;
        }
        if *waiting == LENGTH {
            *waiting = 0;
        }
        if ended.is_continue() {
            append(part, waiting, rest);
        }
        (&made[..done], ended)
    }

    /// The beginning of a packet that is not whole yet, under 188 bytes. At the end of a stream there should be none.
    pub fn part(&self) -> &[u8] {
        &self.part[..self.waiting]
    }

    /// What the library says of that beginning as it is, at the end of the stream.
    pub(super) fn end(&self) -> Result<(), Refusal> {
        match self.part() {
            [] => Ok(()),
            part => self.pipes.make(self.way, part, &mut [0; LENGTH]),
        }
    }
}

/// Puts bytes behind those that wait.
fn append(part: &mut [u8], waiting: &mut usize, bytes: &[u8]) {
    part[*waiting..*waiting + bytes.len()].copy_from_slice(bytes);
    *waiting += bytes.len();
}

/// Says nothing of the bytes.
impl fmt::Debug for Stream<'_> {
    fn fmt(&self, f: &mut fmt::Formatter) -> fmt::Result {
        write!(f, "Stream({:?}, ..)", self.way)
    }
}
