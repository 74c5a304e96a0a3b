//! One stream on its way.

use super::counts::{pid, Counts};
use super::sync;
use crate::fault::Fault;
use crate::progress::Progress;
use crate::shown::count;
use slipgrease::{Packet, Refusal, Stream};
use std::io::{ErrorKind, Read, Write};
use std::ops::ControlFlow::{Break, Continue};
use std::time::Duration;

const PACKET: usize = 188;

/// As much as is read at once, some 64 KiB.
const PIECE: usize = 348 * PACKET;

pub struct Run<'a> {
    pass: bool,
    from: &'a str,
    to: &'a str,
    counts: Counts,
    /// The place of the first packet that has lost sync, and what the stream seems to be.
    lost: Option<(String, Option<&'static str>)>,
    /// What is to be said of a last piece that was passed.
    last_piece: Option<String>,
}

impl<'a> Run<'a> {
    pub fn new(pass: bool, from: &'a str, to: &'a str) -> Run<'a> {
        Run { pass, from, to, counts: Counts::new(), lost: None, last_piece: None }
    }

    /// Writes after each read all packets that are whole by it, so that none waits while the input pauses.
    pub fn through(&mut self, mut stream: Stream, input: &mut dyn Read, out: &mut dyn Write) -> Result<(), Fault> {
        let mut piece = vec![0; PIECE];
        let (mut progress, mut shown) = (Progress::start(Duration::from_secs(1)), 0);
        loop {
            let length = match input.read(&mut piece) {
                Err(error) if error.kind() == ErrorKind::Interrupted => continue,
                read => read.map_err(|error| Fault::at(self.from, error))?,
            };
            let (made, ended) = match length {
                0 => self.end(stream.part()),
                _ => self.take(&mut stream, &piece[..length]),
            };
            out.write_all(made).and_then(|()| out.flush()).map_err(|error| Fault::at(self.to, error))?;
            ended?;
            if length == 0 {
                return Ok(());
            }
            let packets = self.counts.packets();
            progress.at(|since| {
                let bits = ((packets - shown) * 8 * PACKET as u64) as f64;
                shown = packets;
                format!("{}, {:.1} Mbit/s", count(packets as usize, "packet"), bits / since.as_secs_f64() / 1e6)
            });
        }
    }

    /// Takes the next piece, and gives what is to be written of it.
    fn take<'s>(&mut self, stream: &'s mut Stream, piece: &[u8]) -> (&'s [u8], Result<(), Fault>) {
        let (first, part) = (self.counts.packets(), stream.part().len());
        let (mut refused, mut lost) = (None, None);
        let (made, _) = stream.take(piece, |packet, changed| {
            let refusal = match changed {
                Ok(changed) => {
                    self.counts.made(packet, changed);
                    return Continue(());
                }
                Err(refusal) => refusal,
            };
            if refusal == Refusal::SyncLost && lost.is_none() {
                lost = Some((self.counts.packets(), *packet));
            }
            self.counts.refused(packet, refusal);
            if self.pass {
                return Continue(());
            }
            refused = Some((refusal, *packet));
            Break(())
        });
        if let (None, Some((number, packet))) = (&self.lost, lost) {
            let behind = (number + 1 - first) as usize * PACKET - part;
            let at_hand = [&packet[..], &piece[behind..]].concat();
            self.lost = Some((format!("{}: sync is lost", self.place(number)), sync::seems(number * PACKET as u64, &at_hand)));
        }
        (made, refused.map_or(Ok(()), |(refusal, packet)| Err(self.refused(refusal, &packet))))
    }

    /// The stream is at its end, and a part of a packet may be left.
    fn end<'s>(&mut self, part: &'s [u8]) -> (&'s [u8], Result<(), Fault>) {
        if part.is_empty() {
            return (part, Ok(()));
        }
        let place = self.place(self.counts.packets());
        let short = format!("{place}: the stream ends within the packet, with a last piece of {} of its 188 bytes", part.len());
        if !self.pass {
            return (&[], Err(Fault::data(short)));
        }
        self.last_piece = Some(short);
        (part, Ok(()))
    }

    fn place(&self, packet: u64) -> String {
        format!("{}, packet {packet}, byte {}", self.from, packet * PACKET as u64)
    }

    /// The packet that was counted last.
    fn refused(&self, refusal: Refusal, packet: &Packet) -> Fault {
        if let (Refusal::SyncLost, Some((lost, seems))) = (refusal, &self.lost) {
            let fault = Fault::refused(refusal, lost);
            return Fault { message: with(fault.message, seems), ..fault };
        }
        let (code, bits, length) = (packet[3] >> 4 & 3, packet[3] >> 6, packet[4]);
        let seen = match refusal {
            Refusal::FieldWrong if code == 0 => "adaptation code 00".to_string(),
            Refusal::FieldWrong => format!("adaptation code {code:02b}, field length {length}"),
            _ => format!("scrambling bits {bits:02b}"),
        };
        Fault::refused(refusal, &format!("{}, PID {:04x}, {seen}", self.place(self.counts.packets() - 1), pid(packet)))
    }

    /// What became of the packets of each PID, and where the stream was not one of packets.
    pub fn table(&self) -> String {
        let lost = self.lost.clone().map(|(lost, seems)| with(lost, &seems));
        let passed = [&lost, &self.last_piece].into_iter().flatten().filter(|_| self.pass);
        self.counts.table() + &passed.map(|line| format!("{line}\n")).collect::<String>()
    }
}

fn with(message: String, seems: &Option<&str>) -> String {
    seems.map_or(message.clone(), |seems| format!("{message}; {seems}"))
}
