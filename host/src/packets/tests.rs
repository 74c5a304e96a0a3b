//! Lists, packets and streams. What CBC makes is worked out here, by single blocks.

use super::*;
use std::io::{self, ErrorKind};
use std::ops::ControlFlow;

fn pipes(pids: [u16; 7]) -> [Pipe; 7] {
    std::array::from_fn(|k| Pipe {
        pid: pids[k],
        even: Schedule::expand(&[k as u8; 32]),
        odd: Schedule::expand(&[0x80 + k as u8; 32]),
        start: std::array::from_fn(|i| (16 * k + i) as u8),
    })
}

const PIDS: [u16; 7] = [0x0010, 0x1ffe, 0x0100, 0x0101, 0x0102, 0x0103, 0x0104];

/// A packet of a PID that has an adaptation field of so many bytes, with the byte of its length, and a payload behind it.
fn packet(pid: u16, field: usize) -> Packet {
    let mut packet: Packet = std::array::from_fn(|i| (31 * i + 7) as u8);
    let [high, low] = pid.to_be_bytes();
    packet[..4].copy_from_slice(&[0x47, 0x40 | high, low, if field == 0 { 0x15 } else { 0x35 }]);
    if field > 0 {
        packet[4] = field as u8 - 1;
    }
    packet
}

#[test]
fn the_library_judges_a_list() {
    let list = Pipes::new(&pipes(PIDS)).unwrap();
    assert_eq!(list.as_bytes().len(), 3486);
    assert_eq!(Pipes::try_from(list.as_bytes()), Ok(list.clone()));
    for k in 0..7 {
        let of_pipe = &list.as_bytes()[498 * k..][..498];
        let Pipe { pid, even, odd, start } = &pipes(PIDS)[k];
        assert_eq!(of_pipe, [&pid.to_be_bytes()[..], even.as_bytes(), odd.as_bytes(), start].concat());
        for pid in [0x0000, 0x000f, 0x1fff, 0x2000, 0x2010, 0x8100, 0xffff] {
            let mut pids = PIDS;
            pids[k] = pid;
            assert_eq!(Pipes::new(&pipes(pids)), Err(Refusal::PipesWrong), "{pid:04x} for pipe {k}");
        }
        for other in (0..7).filter(|other| *other != k) {
            let mut pids = PIDS;
            pids[k] = pids[other];
            assert_eq!(Pipes::new(&pipes(pids)), Err(Refusal::PipesWrong), "pipe {k} as pipe {other}");
        }
    }
    for (k, short) in
        (0..7).flat_map(|k| [Schedule::expand(&[k as u8; 16]), Schedule::expand(&[k as u8; 24])].map(|its| (k, its)))
    {
        let (mut even, mut odd) = (pipes(PIDS), pipes(PIDS));
        even[k].even = short.clone();
        odd[k].odd = short;
        assert_eq!([even, odd].map(|pipes| Pipes::new(&pipes)), [Err(Refusal::PipesWrong), Err(Refusal::PipesWrong)], "pipe {k}");
    }
    let longer = [list.as_bytes(), &[0; 498]].concat();
    for length in [0, 498, 6 * 498, 3485, 3487, 8 * 498] {
        assert_eq!(Pipes::try_from(&longer[..length]), Err(Refusal::PipesWrong), "{length}");
    }
}

#[test]
fn nothing_is_said_of_keys() {
    let pipes = pipes(PIDS);
    assert_eq!(format!("{:?}", Pipes::new(&pipes).unwrap()), "Pipes(..)");
    assert_eq!(format!("{:?}", pipes[3]), "Pipe(0101, ..)");
}

/// At each length of the field, of each pipe and parity: SP 800-38A's chain from the starting block on, over whole blocks.
#[test]
fn payloads_are_chained_from_the_starting_block_on() {
    let pipes = pipes(PIDS);
    let list = Pipes::new(&pipes).unwrap();
    for (k, pipe) in pipes.iter().enumerate() {
        for (parity, schedule, bits) in [(Parity::Even, &pipe.even, 0x80), (Parity::Odd, &pipe.odd, 0xc0)] {
            for field in (k..=183).step_by(7) {
                let clear = packet(pipe.pid, field);
                let mut expected = clear;
                let mut before = pipe.start;
                for block in expected[4 + field..].chunks_exact_mut(16) {
                    let chained: Block = std::array::from_fn(|i| block[i] ^ before[i]);
                    before = schedule.encrypt(&chained);
                    block.copy_from_slice(&before);
                }
                if field <= 168 {
                    expected[3] |= bits;
                }
                assert_eq!(list.scramble(&clear, parity), Ok(expected), "pipe {k}, {parity:?}, field {field}");
                assert_eq!(list.descramble(&expected), Ok(clear), "pipe {k}, {parity:?}, field {field}");
            }
        }
    }
}

/// Packets of two pipes and of an unlisted PID, with every length of the field.
fn stream() -> Vec<u8> {
    (0..=183).flat_map(|field| [packet(0x1ffe, field), packet(0x0011, field), packet(0x0104, 183 - field)]).flatten().collect()
}

/// Packets, and what was made of each.
type Seen = Vec<(Packet, Result<Packet, Refusal>)>;

/// What a function was given of a stream in pieces of a length, what was made of it, and what was left at the end.
fn taken(way: Way, stream: &[u8], length: usize) -> (Seen, Vec<u8>, Vec<u8>) {
    let list = Pipes::new(&pipes(PIDS)).unwrap();
    let (mut seen, mut out, mut taken) = (Vec::new(), Vec::new(), list.stream(way));
    for piece in stream.chunks(length) {
        let (made, ended) = taken.take(piece, |packet, made| {
            seen.push((*packet, made.copied()));
            ControlFlow::<()>::Continue(())
        });
        assert_eq!(ended, ControlFlow::Continue(()));
        out.extend_from_slice(made);
    }
    (seen, out, taken.part().to_vec())
}

/// The clear stream, the same scrambled, packets of which some are refused, and the beginning of one.
#[test]
fn pieces_of_every_length_make_the_same_stream() {
    let list = Pipes::new(&pipes(PIDS)).unwrap();
    let scrambled = taken(Way::Scramble(Parity::Odd), &stream(), 188).1;
    let all = [&stream()[..], &scrambled, &[0x46; 188], &[0x47; 100]].concat();
    for way in [Way::Scramble(Parity::Even), Way::Descramble] {
        let packets = all.chunks_exact(188).map(|packet| <Packet>::try_from(packet).unwrap());
        let seen: Seen = packets.map(|packet| (packet, list.made(way, &packet))).collect();
        let out: Vec<u8> = seen.iter().flat_map(|(packet, made)| made.unwrap_or(*packet)).collect();
        assert_eq!(seen.iter().filter(|(_, made)| made.is_err()).count(), if way == Way::Descramble { 1 } else { 2 * 169 + 1 });
        for length in [1, 16, 187, 188, 189, 376, 1000, all.len()] {
            assert_eq!(taken(way, &all, length), (seen.clone(), out.clone(), vec![0x47; 100]), "pieces of {length}");
        }
    }
}

#[test]
fn where_a_function_breaks_off_the_rest_is_not_taken() {
    let list = Pipes::new(&pipes(PIDS)).unwrap();
    let mut taken = list.stream(Way::Descramble);
    let (mut seen, stream) = (0, stream());
    let (made, ended) = taken.take(&stream[..1000], |_, _| {
        seen += 1;
        if seen == 3 {
            ControlFlow::Break(seen)
        } else {
            ControlFlow::Continue(())
        }
    });
    assert_eq!((made, ended, seen), (&stream[..2 * 188], ControlFlow::Break(3), 3));
    assert_eq!(taken.part(), []);
}

/// What a writer has written of a stream in pieces of a length, and the packets that it refused in writing and at the end. It is
/// given one byte more than the stream.
fn written(way: Way, stream: &[u8], length: usize) -> (Vec<u8>, [Option<RefusedPacket>; 2]) {
    let list = Pipes::new(&pipes(PIDS)).unwrap();
    let mut out = Vec::new();
    let mut writer = list.writer(way, &mut out);
    let copied = told(stream.chunks(length).try_for_each(|piece| writer.write_all(piece)));
    assert_eq!(told(writer.write_all(&[0x47])), copied);
    let ended = told(writer.finish());
    (out, [copied, ended])
}

/// The packet that an error holds.
fn told<T>(result: io::Result<T>) -> Option<RefusedPacket> {
    let error = result.err()?;
    assert_eq!(error.kind(), ErrorKind::InvalidData);
    Some(*error.get_ref().expect("a reason").downcast_ref().expect("a refused packet"))
}

/// At a packet that is refused, and at the end within a packet.
#[test]
fn a_writer_writes_all_that_came_before_a_refused_packet() {
    let clear = stream();
    let scrambled = taken(Way::Scramble(Parity::Odd), &clear, 188).1;
    for length in [1, 187, 188, 189, clear.len()] {
        let end = RefusedPacket { number: 552, refusal: Refusal::PacketLength };
        assert_eq!(written(Way::Descramble, &scrambled, length), (clear.clone(), [None, Some(end)]), "pieces of {length}");

        for (number, place, byte, refusal) in
            [(0, 0, 0x48, Refusal::SyncLost), (5, 3, 0x05, Refusal::FieldWrong), (300, 3, 0x55, Refusal::BitsWrong)]
        {
            let mut spoiled = scrambled.clone();
            spoiled[188 * number + place] = byte;
            let refused = Some(RefusedPacket { number: number as u64, refusal });
            let expected = (clear[..188 * number].to_vec(), [refused, refused]);
            assert_eq!(written(Way::Descramble, &spoiled, length), expected, "pieces of {length}, {refusal}");
        }
    }
}
