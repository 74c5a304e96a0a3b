//! `second stream CLEAR SCRAMBLED PIPES even|odd`: a scrambled stream beside the clear one of which it was made, packet by packet.
//! Each must be what this program makes of the clear one; PIPES is a pipes file of the desk tool.
//!
//! It prints how many packets of each kind the clear stream has and where the first is, counted from 0, and then a line for each
//! packet that differs. It fails where any does, and where a kind does not occur.

use crate::cipher::{expand_key, Boxes};
use crate::packet::{has_block, payload_start, pipe_of, pipes, scrambled, Header, Pipe, PACKET, SYNC};
use std::fs;

/// A packet of the clear stream, and whether its PID is listed.
struct Seen<'a> {
    packet: &'a [u8],
    listed: bool,
}

impl Seen<'_> {
    fn header(&self) -> Header {
        Header::read(self.packet)
    }

    /// How long the payload is of a packet that is listed.
    fn payload(&self) -> Option<usize> {
        payload_start(self.packet).filter(|_| self.listed).map(|start| PACKET - start)
    }

    /// The adaptation field behind its length, of a packet that is listed and has one.
    fn field(&self) -> &[u8] {
        match (self.payload(), self.header().adaptation) {
            (Some(payload), 0b10 | 0b11) => &self.packet[5..PACKET - payload],
            _ => &[],
        }
    }
}

/// The kinds that must occur, as 13818-1 tells them apart: those of a listed PID by code and length, and by flags of their fields.
type Kind = (&'static str, fn(&Seen) -> bool);
const KINDS: [Kind; 9] = [
    ("null packets", |seen| seen.header().pid == 0x1fff),
    ("not listed, others", |seen| !seen.listed && seen.header().pid != 0x1fff),
    ("listed, payload alone", |seen| seen.listed && seen.header().adaptation == 0b01),
    ("listed, field, blocks and no rest", |seen| seen.header().adaptation == 0b11 && is_whole(seen)),
    ("listed, field, blocks and a rest", |seen| seen.header().adaptation == 0b11 && has_rest(seen)),
    ("listed, payload under 16 bytes", |seen| matches!(seen.payload(), Some(1..=15))),
    ("listed, no payload", |seen| seen.payload() == Some(0)),
    ("listed, field with a PCR", |seen| matches!(seen.field(), [flags, ..] if flags & 0x10 != 0)),
    ("listed, field that is stuffing", |seen| matches!(seen.field(), [0, stuffing @ ..] if stuffing.iter().all(|&b| b == 0xff))),
];

fn is_whole(seen: &Seen) -> bool {
    matches!(seen.payload(), Some(length) if length >= 16 && length % 16 == 0)
}

fn has_rest(seen: &Seen) -> bool {
    matches!(seen.payload(), Some(length) if length >= 16 && length % 16 != 0)
}

/// Whether all is as it should be; or what keeps the streams from being compared.
pub fn compare(clear: &str, made: &str, list: &str, parity: &str) -> Result<bool, String> {
    let odd = match parity {
        "even" => false,
        "odd" => true,
        _ => return Err(format!("{parity}: neither even nor odd")),
    };
    let boxes = Boxes::new();
    let list = read_list(&boxes, &String::from_utf8_lossy(&read(list)?))?;
    let pipes = pipes(&list).ok_or("PIPES: a PID is not free for streams, or stands there twice")?;
    let (clear, made) = (read(clear)?, read(made)?);
    if clear.len() % PACKET != 0 || made.len() != clear.len() {
        return Err(format!("{} and {} bytes: not two streams of as many whole packets", clear.len(), made.len()));
    }
    let all_occur = print_kinds(&clear, &pipes);
    let mut differ = 0;
    for (number, (packet, made)) in clear.chunks(PACKET).zip(made.chunks(PACKET)).enumerate() {
        if let Some(fault) = fault(&boxes, &pipes, odd, packet, made) {
            println!("packet {number}, PID {:04x}: {fault}", Header::read(packet).pid);
            differ += 1;
        }
    }
    println!("{} packets compared, {parity}, {differ} differ", clear.len() / PACKET);
    Ok(all_occur && differ == 0)
}

fn read(path: &str) -> Result<Vec<u8>, String> {
    fs::read(path).map_err(|error| format!("{path}: {error}"))
}

/// Whether each kind occurs.
fn print_kinds(clear: &[u8], pipes: &[Pipe]) -> bool {
    let seen = |packet| Seen { packet, listed: pipe_of(pipes, packet).is_some() };
    println!("{:<36} {:>8} {:>8}", "packets", "how many", "first");
    let mut all_occur = true;
    for (name, is_kind) in KINDS {
        let places: Vec<usize> =
            clear.chunks(PACKET).enumerate().filter(|(_, packet)| is_kind(&seen(packet))).map(|(number, _)| number).collect();
        let first = places.first().map_or("missing".to_string(), usize::to_string);
        println!("{name:<36} {:>8} {first:>8}", places.len());
        all_occur &= !places.is_empty();
    }
    all_occur
}

/// What is wrong with a packet that was made of a clear one, by the part of it where it first differs.
fn fault(boxes: &Boxes, pipes: &[Pipe], odd: bool, clear: &[u8], made: &[u8]) -> Option<String> {
    let header = Header::read(clear);
    let listed = pipe_of(pipes, clear).is_some();
    if header.sync != SYNC || listed && (payload_start(clear).is_none() || header.scrambling != 0b00) {
        return Some("nothing can be made of the clear one".into());
    }
    let expected = scrambled(boxes, pipes, odd, clear);
    let place = (0..PACKET).find(|&i| made[i] != expected[i])?;
    let (bits, right) = (Header::read(made).scrambling, Header::read(&expected).scrambling);
    if (Header { scrambling: right, ..Header::read(made) }) == Header::read(&expected) && bits != right {
        return Some(format!("scrambling bits are {bits:02b}, and should be {right:02b}"));
    }
    let start = payload_start(clear).unwrap_or(4);
    Some(match place {
        0..=3 => "the header differs".into(),
        _ if !listed => "not listed, and not copied".into(),
        _ if place < start => "the adaptation field differs".into(),
        _ if !has_block(clear) => "too short to be scrambled, and not copied".into(),
        _ if place < PACKET - (PACKET - start) % 16 => format!("block {} of the payload differs", (place - start) / 16),
        _ => "the rest behind the blocks differs".into(),
    })
}

/// The 3,486 bytes of a pipes file: seven lines of PID, even key, odd key and starting block; blank lines and those that begin with
/// # are skipped.
fn read_list(boxes: &Boxes, text: &str) -> Result<Vec<u8>, String> {
    let mut list = Vec::new();
    let lines = text.lines().filter(|line| !line.trim().is_empty() && !line.starts_with('#'));
    let rows: Vec<Vec<&str>> = lines.map(|line| line.split_whitespace().collect()).collect();
    for row in &rows {
        let fields: Vec<Vec<u8>> = row.iter().map(|word| hex(word)).collect::<Option<_>>().unwrap_or_default();
        let lengths: Vec<usize> = fields.iter().map(Vec::len).collect();
        if lengths != [2, 32, 32, 16] {
            return Err("PIPES: a line is not PID EVENKEY ODDKEY START in hex digits".into());
        }
        let [even, odd] = [&fields[1], &fields[2]].map(|key| expand_key(boxes, key));
        list.extend([&fields[0][..], &even, &odd, &fields[3]].concat());
    }
    match rows.len() {
        7 => Ok(list),
        count => Err(format!("PIPES: {count} lines, and should be seven")),
    }
}

fn hex(word: &str) -> Option<Vec<u8>> {
    let digits: Vec<u8> = word.chars().map(|digit| digit.to_digit(16).map(|value| value as u8)).collect::<Option<_>>()?;
    (digits.len() % 2 == 0).then(|| digits.chunks(2).map(|pair| pair[0] << 4 | pair[1]).collect())
}
