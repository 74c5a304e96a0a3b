//! Sheets: version 1 is 21 bytes and means step 1, version 2 is 22 bytes and has the step last.

use super::{edge, Edge};
use slipgrease::calls;

/// A sheet of sevens behind mark and version, so that the step of version 2 is 7.
fn sheet(version: u8, length: usize) -> Vec<u8> {
    let mut sheet = [b"MSK\x00", &[version][..], &[7; 32]].concat();
    sheet.truncate(length);
    sheet
}

/// Checked are: 5 bytes or more, mark, version, the version's length, step, mask table.
pub fn read() -> Vec<Edge> {
    let mut edges = Vec::new();
    for (version, length, number, step) in [
        (1, 0, 11, 0),
        (1, 4, 11, 0),
        (1, 5, 11, 0),
        (1, 20, 11, 0),
        (1, 21, 0, 1),
        (1, 22, 11, 0),
        (2, 21, 11, 0),
        (2, 22, 0, 7),
        (2, 23, 11, 0),
        (0, 21, 13, 0),
        (3, 5, 13, 0),
        (3, 22, 13, 0),
        (3, 30, 13, 0),
    ] {
        let read = calls::read_sheet(&sheet(version, length), &mut [0; 16]);
        edges.push(edge(format!("reply to version {version} of {length} bytes, read"), read >> 8, number));
        edges.push(edge("step beside it", read & 0xff, step));
    }
    for (step, masks, number) in
        [(0, 16, 15), (1, 16, 15), (3, 16, 15), (4, 16, 0), (15, 16, 0), (16, 16, 15), (1, 15, 15), (4, 15, 5)]
    {
        let sheet = [&sheet(2, 21)[..], &[step]].concat();
        let read = calls::read_sheet(&sheet, &mut vec![0; masks]);
        edges.push(edge(format!("reply to step {step} of version 2, {masks} masks, read"), read >> 8, number));
    }
    edges.extend([
        edge("reply to four bytes of another mark, read", calls::read_sheet(b"MSX\x00", &mut [0; 16]) >> 8, 11),
        edge("reply to five bytes of another mark, read", calls::read_sheet(b"MSX\x00\x03", &mut [0; 16]) >> 8, 12),
        edge("reply to version 0102, read", calls::read_sheet(b"MSK\x01\x02sixteen bytes...\x04", &mut [0; 16]) >> 8, 13),
    ]);
    edges
}

/// Checked are: step, the step's length, mask table.
pub fn written() -> Vec<Edge> {
    let mut edges = Vec::new();
    for (step, length, masks, number) in [
        (1, 20, 16, 11),
        (1, 21, 16, 0),
        (1, 22, 16, 11),
        (4, 21, 16, 11),
        (4, 22, 16, 0),
        (4, 23, 16, 11),
        (2, 20, 15, 15),
        (1, 20, 15, 11),
        (1, 21, 15, 5),
        (15, 22, 17, 5),
        (16, 22, 16, 15),
        (0, 21, 16, 15),
    ] {
        let written = calls::write_sheet(&vec![7; masks], step, &mut vec![0; length]);
        edges.push(edge(format!("reply to step {step}, {length} bytes, {masks} masks, written"), written, number));
    }
    edges
}
