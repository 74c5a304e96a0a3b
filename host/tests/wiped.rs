//! What is freed holds no key and nothing that was worked with: this test has an allocator of its own, which looks at every block
//! of memory that is given back.

use slipgrease::{Offset, Parity, Pipe, Pipes, Schedule, Step, Way};
use std::alloc::{GlobalAlloc, Layout, System};
use std::cell::Cell;
use std::io::{self, Write};
use std::ops::ControlFlow;

/// What keys and payloads are made of here, and how many of it in a row are found.
const MARK: u8 = 0xc5;
const ROW: usize = 16;

struct Looking;

#[global_allocator]
static ALLOCATOR: Looking = Looking;

thread_local! {
    /// How many such rows this thread has freed; tests run beside one another.
    static FOUND: Cell<usize> = const { Cell::new(0) };
}

/// Every block begins as zeros, so that all of it can be looked at. A block that grows is another one, and the first is freed.
unsafe impl GlobalAlloc for Looking {
    unsafe fn alloc(&self, layout: Layout) -> *mut u8 {
        System.alloc_zeroed(layout)
    }

    unsafe fn dealloc(&self, block: *mut u8, layout: Layout) {
        let mut row = 0;
        for byte in std::slice::from_raw_parts(block, layout.size()) {
            row = if *byte == MARK { row + 1 } else { 0 };
            if row == ROW {
                FOUND.with(|found| found.set(found.get() + 1));
            }
        }
        System.dealloc(block, layout);
    }
}

/// How many rows are freed while something is done.
fn found(work: impl FnOnce()) -> usize {
    let before = FOUND.with(Cell::get);
    work();
    FOUND.with(Cell::get) - before
}

fn schedule() -> Schedule {
    Schedule::expand(&[MARK; 32])
}

fn pipes() -> Pipes {
    let pipe = |k| Pipe { pid: 0x0100 + k as u16, even: schedule(), odd: schedule(), start: [MARK; 16] };
    Pipes::new(&std::array::from_fn(pipe)).unwrap()
}

/// A packet that is copied, since its PID is not listed.
fn packet() -> [u8; 188] {
    let mut packet = [MARK; 188];
    packet[..4].copy_from_slice(&[0x47, 0x00, 0x20, 0x10]);
    packet
}

#[test]
fn what_is_not_wiped_is_found() {
    assert_eq!(found(|| drop(vec![MARK; ROW])), 1);
    assert_eq!(found(|| drop(vec![MARK; ROW - 1])), 0);
    let mut growing = vec![MARK; ROW];
    assert_eq!(found(|| growing.reserve(1000)), 1);
}

#[test]
fn schedules_and_lists_are_wiped() {
    assert_eq!(found(|| drop(schedule())), 0);
    assert_eq!(found(|| drop(schedule().clone())), 0);
    assert_eq!(found(|| drop(Schedule::expand(&[MARK; 16]))), 0);
    assert_eq!(found(|| drop(Schedule::expand_slice(&[MARK; 24]))), 0);
    assert_eq!(found(|| drop(Schedule::new([MARK; 176]))), 0);
    assert_eq!(found(|| drop(Schedule::new([MARK; 240]))), 0);
    assert_eq!(found(|| drop(Schedule::try_from(&[MARK; 240][..]))), 0);
    assert_eq!(found(|| drop(vec![schedule(), schedule()])), 0);
    assert_eq!(found(|| drop(pipes())), 0);
    assert_eq!(found(|| drop(pipes().clone())), 0);
    assert_eq!(found(|| assert!(Pipes::try_from(pipes().as_bytes()).is_ok())), 0);
    assert_eq!(found(|| assert!(Pipes::try_from(&[MARK; 7 * 498][..]).is_err())), 0);
}

#[test]
fn what_is_worked_with_is_wiped() {
    let offset = Offset::new(3).unwrap();
    let blocks = [([MARK; 16], offset); 300];
    assert_eq!(found(|| assert_eq!(schedule().encrypt_blocks(&blocks, Step::ONE).len(), 300)), 0);

    let packets = [packet(); 5].concat();
    for way in [Way::Scramble(Parity::Even), Way::Descramble] {
        let in_pieces = |lengths: [usize; 4]| {
            let pipes = pipes();
            let (mut stream, mut rest) = (pipes.stream(way), &packets[..]);
            for length in lengths {
                let (piece, behind) = rest.split_at(length);
                assert_eq!(stream.take(piece, |_, _| ControlFlow::<()>::Continue(())).1, ControlFlow::Continue(()));
                rest = behind;
            }
        };
        assert_eq!(found(|| in_pieces([100, 100, 300, 400])), 0, "{way:?}");
        assert_eq!(found(|| in_pieces([188, 376, 376, 0])), 0, "{way:?}");
        assert_eq!(found(|| assert!(pipes().writer(way, io::sink()).write_all(&packets).is_ok())), 0, "{way:?}");
    }
}

/// State 0 is the block.
#[test]
fn records_are_wiped() {
    let schedule = Schedule::expand(&[1; 32]);
    assert_eq!(schedule.record(&[MARK; 16]).state(0), &[MARK; 16]);
    assert_eq!(found(|| drop(schedule.record(&[MARK; 16]))), 0);
    assert_eq!(found(|| drop(schedule.record(&[MARK; 16]).clone())), 0);
}
