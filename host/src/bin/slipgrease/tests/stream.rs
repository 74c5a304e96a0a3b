//! Streams of packets. What a block becomes is from SP 800-38A, F.2.5, and the rest is counted here.

mod given;
mod live;

use super::{run, Folder};
use std::ffi::OsString;
use std::io::{self, BufRead, Read};

/// Of SP 800-38A, F.2.5: key, initial value, plaintext and ciphertext.
const KEY: &str = "603deb1015ca71be2b73aef0857d77811f352c073b6108d72d9810a30914dff4";
const START: &str = "000102030405060708090a0b0c0d0e0f";
const PLAINTEXT: &str =
    "6bc1bee22e409f96e93d7e117393172aae2d8a571e03ac9c9eb76fac45af8e5130c81c46a35ce411e5fbc1191a0a52eff69f2445df4f9b17\
                         ad2b417be66c3710";
const CIPHERTEXT: &str =
    "f58c4c04d6e5f1ba779eabfb5f7bfbd69cfc4e967edb808d679f777bc6702c7d39f23369a9d9bacfa530e26304231461b2eb05e2c39be9fc\
                          da6c19078c6a9d1b";

/// The PIDs of the file of pipes.
const PIDS: [u16; 7] = [0x0100, 0x0101, 0x0102, 0x0103, 0x0010, 0x1ffe, 0x0104];

/// The file of pipes: the first has the standard's key as its even key, and the second as its odd one.
pub fn list() -> String {
    let other = "5a".repeat(32);
    let keys = |k: usize| [[KEY, &other], [&other, KEY], [&other, &other]][k.min(2)].join(" ");
    let remark = |k: usize| if k == 2 { "\n# the others\n" } else { "" };
    PIDS.iter().enumerate().map(|(k, pid)| format!("{}{pid:04x} {} {START}\n", remark(k), keys(k))).collect()
}

/// A packet of a PID, its third byte, and the length of its adaptation field where it has one. Its payload begins with as much of
/// some hex digits as there is room for.
fn packet(pid: u16, third: u8, field: Option<u8>, payload: &str) -> Vec<u8> {
    let [high, low] = pid.to_be_bytes();
    let mut packet = vec![0x47, high, low, third];
    if let Some(length) = field {
        packet.push(length);
        packet.resize(5 + usize::from(length), 0xff);
    }
    packet.extend(crate::hex::bytes(payload).unwrap());
    packet.resize(188, 0xee);
    packet
}

/// Four packets, one of which has a payload of 15 bytes.
pub fn example() -> Vec<u8> {
    let long = packet(0x0100, 0x15, None, PLAINTEXT);
    [packet(0x0000, 0x10, None, ""), long.clone(), long, packet(0x0100, 0x36, Some(168), "")].concat()
}

/// Input that comes in pieces of at most so many bytes.
struct Pieces<'a>(&'a [u8], usize);

impl Read for Pieces<'_> {
    fn read(&mut self, buffer: &mut [u8]) -> io::Result<usize> {
        let length = self.fill_buf()?.read(buffer)?;
        self.consume(length);
        Ok(length)
    }
}

impl BufRead for Pieces<'_> {
    fn fill_buf(&mut self) -> io::Result<&[u8]> {
        Ok(&self.0[..self.1.min(self.0.len())])
    }

    fn consume(&mut self, length: usize) {
        self.0 = &self.0[length..];
    }
}

/// What a command writes to standard output and to standard error, and its message and status where it fails.
type Streamed = (Vec<u8>, String, Option<(String, i32)>);

/// The same whatever the pieces are in which the stream comes.
fn streamed(line: &str, input: &[u8]) -> Streamed {
    let words: Vec<OsString> = line.split_whitespace().map(OsString::from).collect();
    let in_pieces = |length: usize| {
        let (mut out, mut notes) = (Vec::new(), Vec::new());
        let failed = run(&words, &mut Pieces(input, length), &mut out, &mut notes).err();
        (out, String::from_utf8(notes).unwrap(), failed.map(|fault| (fault.message, fault.status)))
    };
    let at_once = in_pieces(usize::MAX);
    for length in [1, 187, 188, 189, 4096] {
        assert_eq!(in_pieces(length), at_once, "{line}, in pieces of {length}");
    }
    at_once
}

/// The rows of a table: changed, copied, and refused for 20, 21 and 23.
fn table(rows: &[(&str, [u64; 5])]) -> String {
    let mut table = "PID       packets      changed       copied   refused 20   refused 21   refused 23\n".to_string();
    let all = (0..5).map(|column| rows.iter().map(|row| row.1[column]).sum());
    for (name, counts) in rows.iter().copied().chain([("all", all.collect::<Vec<u64>>().try_into().unwrap())]) {
        let numbers = [counts.iter().sum()].into_iter().chain(counts);
        table += &format!("{name:<4}{}\n", numbers.map(|number: u64| format!("{number:>13}")).collect::<String>());
    }
    table
}

#[test]
fn the_standard_s_blocks_are_chained_where_the_field_ends() {
    let folder = Folder::new("standard");
    let pipes = folder.file("pipes.txt", list());
    for (parity, pid, bits) in [("even", 0x0100, 0x80), ("odd", 0x0101, 0xc0)] {
        for (third, field) in [(0x17, None), (0x37, Some(0)), (0x37, Some(1)), (0x37, Some(119))] {
            let clear = packet(pid, third, field, PLAINTEXT);
            let (scrambled, notes, failed) = streamed(&format!("scramble --{parity} --pipes {pipes}"), &clear);
            let blocks = 4 + field.map_or(0, |length| 1 + usize::from(length));
            assert_eq!(scrambled[..blocks], packet(pid, third | bits, field, "")[..blocks]);
            assert_eq!(crate::hex::digits(&scrambled[blocks..blocks + 64]), CIPHERTEXT);
            assert_eq!((notes, failed), (table(&[(&format!("{pid:04x}"), [1, 0, 0, 0, 0])]), None));
            assert_eq!(streamed(&format!("descramble --pipes {pipes}"), &scrambled).0, clear);
        }
    }
}

/// Beyond a piece of 64 KiB, from file to file and from stream to stream.
#[test]
fn a_long_stream_comes_back() {
    let folder = Folder::new("long");
    let pipes = folder.file("pipes.txt", list());
    let clear = example().repeat(100);
    let [from, scrambled, to] = ["clear.ts", "scrambled.ts", "restored.ts"].map(|name| folder.path(name));
    folder.file("clear.ts", &clear);
    folder.file("scrambled.ts", vec![0x55; 2 * clear.len()]);
    let counted = table(&[("0000", [0, 100, 0, 0, 0]), ("0100", [200, 100, 0, 0, 0])]);
    let done = (Vec::new(), counted.clone(), None);
    assert_eq!(streamed(&format!("scramble --pipes {pipes} --odd {from} {scrambled}"), b""), done);
    assert_eq!(streamed(&format!("descramble {scrambled} {to} --pipes {pipes}"), b""), done);
    assert_eq!(std::fs::read(&to).unwrap(), clear);

    let through = std::fs::read(&scrambled).unwrap();
    assert_eq!(streamed(&format!("scramble --pipes {pipes} --odd"), &clear), (through.clone(), counted.clone(), None));
    assert_eq!(streamed(&format!("descramble --pipes {pipes} - -"), &through), (clear, counted, None));
}

/// What each packet is refused for, and in which row it is counted.
#[test]
fn a_refused_packet_ends_a_stream_and_is_passed_where_asked() {
    let folder = Folder::new("refused");
    let pipes = folder.file("pipes.txt", list());
    let spoiled = packet(0x0100, 0x15, None, "").into_iter().skip(1).chain([0x47]).collect();
    let cases = [
        ("descramble", spoiled, "lost", 2, ": sync is lost: the packet does not begin with 47 (reply 20, SYNC_LOST)"),
        (
            "scramble --even",
            packet(0x0102, 0x05, None, ""),
            "0102",
            3,
            ", PID 0102, adaptation code 00: the adaptation code is 00, or the length of the field does not fit the code \
             (reply 21, FIELD_WRONG)",
        ),
        (
            "descramble",
            packet(0x1ffe, 0x35, Some(183), ""),
            "1ffe",
            3,
            ", PID 1ffe, adaptation code 11, field length 183: the adaptation code is 00, or the length of the field does not fit \
             the code (reply 21, FIELD_WRONG)",
        ),
        (
            "scramble --odd",
            packet(0x0010, 0x95, None, ""),
            "0010",
            4,
            ", PID 0010, scrambling bits 10: the scrambling bits do not allow what is to be done (reply 23, BITS_WRONG)",
        ),
        (
            "descramble",
            packet(0x0104, 0xf5, Some(168), ""),
            "0104",
            4,
            ", PID 0104, scrambling bits 11: the scrambling bits do not allow what is to be done (reply 23, BITS_WRONG)",
        ),
    ];
    let unlisted = packet(0x0020, 0xc5, None, "");
    for (command, packet, row, column, message) in cases {
        let stream = [&unlisted.repeat(9)[..], &packet, &unlisted].concat();
        let refused = |count: u64| {
            let mut counts = [0; 5];
            counts[column] = count;
            (row, counts)
        };
        let with = |copied: u64, count: u64| {
            let mut rows = [("0020", [0, copied, 0, 0, 0]), refused(count)];
            rows.sort_unstable();
            table(&rows)
        };
        let line = format!("{command} --pipes {pipes}");
        let told = Some((format!("standard input, packet 9, byte 1692{message}"), 2));
        assert_eq!(streamed(&line, &stream), (unlisted.repeat(9), with(9, 1), told), "{line}");
        let lost = if column == 2 { "standard input, packet 9, byte 1692: sync is lost\n" } else { "" };
        let twice = stream.repeat(2);
        assert_eq!(streamed(&format!("{line} --pass"), &twice), (twice, with(20, 2) + lost, None), "{line} --pass");
    }
}

#[test]
fn a_last_piece_is_named_and_passed_where_asked() {
    let folder = Folder::new("last");
    let pipes = folder.file("pipes.txt", list());
    let line = format!("descramble --pipes {pipes}");
    let unlisted = packet(0x0020, 0xc5, None, "");
    for (whole, length) in [(0, 1), (3, 187), (3, 1), (400, 100)] {
        let stream = unlisted.repeat(whole + 1)[..188 * whole + length].to_vec();
        let row = [("0020", [0, whole as u64, 0, 0, 0])];
        let rows = if whole == 0 { &[] } else { &row[..] };
        let told = format!(
            "standard input, packet {whole}, byte {}: the stream ends within the packet, with a last piece of {length} of its 188 \
             bytes",
            188 * whole
        );
        assert_eq!(streamed(&line, &stream), (unlisted.repeat(whole), table(rows), Some((told.clone(), 2))));
        assert_eq!(streamed(&format!("{line} --pass"), &stream), (stream, format!("{}{told}\n", table(rows)), None));
    }
    assert_eq!(streamed(&line, b""), (Vec::new(), table(&[]), None));
}

/// A stream of each kind, from its beginning and behind packets whose first byte happens to be 47 all the same.
#[test]
fn packets_of_other_lengths_are_named() {
    let folder = Folder::new("other");
    let line = format!("descramble --pipes {}", folder.file("pipes.txt", list()));
    let unlisted = packet(0x0020, 0x15, None, "");
    let (before, behind) = ([&[0x07; 4], &unlisted[..]].concat(), [&unlisted[..], &[0x07; 16]].concat());
    let mut lucky = before.clone();
    lucky[0] = 0x47;
    let m2ts = "; the stream seems to be of 192-byte packets (M2TS, 4 bytes before each packet)";
    let parity = "; the stream seems to be of 204-byte packets (16 bytes of Reed-Solomon parity behind each packet)";
    let cases = [
        (before.repeat(40), 0, m2ts),
        ([lucky, before.repeat(40)].concat(), 1, m2ts),
        (behind.repeat(40), 1, parity),
        ([unlisted.repeat(5), vec![0x07; 188], unlisted.repeat(5)].concat(), 5, ""),
        (vec![0; 188 * 3], 0, ""),
    ];
    for (stream, number, seems) in cases {
        let lost = format!("standard input, packet {number}, byte {}: sync is lost", 188 * number);
        let (out, _, failed) = streamed(&line, &stream);
        assert_eq!(out, stream[..188 * number]);
        assert_eq!(failed, Some((format!("{lost}: the packet does not begin with 47 (reply 20, SYNC_LOST){seems}"), 2)));
        let (out, notes, failed) = streamed(&format!("{line} --pass"), &stream);
        assert!(notes.contains("\nlost ") && notes.contains(&format!("\n{lost}{seems}\n")), "{notes}");
        assert_eq!((out, failed), (stream, None));
    }
}
