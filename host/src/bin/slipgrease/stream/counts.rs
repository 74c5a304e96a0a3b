//! The table of PIDs.

use slipgrease::{Packet, Refusal};
use std::fmt::Write;

/// For what a packet of a stream can be refused: its length is right, and so is the list of pipes.
const REFUSALS: [Refusal; 3] = [Refusal::SyncLost, Refusal::FieldWrong, Refusal::BitsWrong];

const PIDS: usize = 8192;

pub struct Counts {
    packets: u64,
    /// A row for each PID, and one for packets that have lost sync, whose PID means nothing.
    rows: Vec<Row>,
}

#[derive(Clone, Copy, Default)]
struct Row {
    changed: u64,
    copied: u64,
    refused: [u64; REFUSALS.len()],
}

/// Of a packet that has not lost sync.
pub fn pid(packet: &Packet) -> u16 {
    u16::from_be_bytes([packet[1], packet[2]]) % PIDS as u16
}

impl Counts {
    pub fn new() -> Counts {
        Counts { packets: 0, rows: vec![Row::default(); PIDS + 1] }
    }

    /// How many packets there were.
    pub fn packets(&self) -> u64 {
        self.packets
    }

    /// A packet and what the library made of it. The scrambling bits change with the payload and never alone.
    pub fn made(&mut self, packet: &Packet, made: &Packet) {
        let row = &mut self.rows[usize::from(pid(packet))];
        if packet[3] == made[3] {
            row.copied += 1;
        } else {
            row.changed += 1;
        }
        self.packets += 1;
    }

    pub fn refused(&mut self, packet: &Packet, refusal: Refusal) {
        let row = if refusal == Refusal::SyncLost { PIDS } else { usize::from(pid(packet)) };
        let column = REFUSALS.iter().position(|its| *its == refusal).expect("length and list are right");
        self.rows[row].refused[column] += 1;
        self.packets += 1;
    }

    /// A row for each PID that was seen, and their sums.
    pub fn table(&self) -> String {
        let mut table = format!("{:<4}{:>13}{:>13}{:>13}", "PID", "packets", "changed", "copied");
        for refusal in REFUSALS {
            table += &format!("{:>13}", format!("refused {}", refusal.number()));
        }
        table.push('\n');
        let mut all = Row::default();
        for (pid, row) in self.rows.iter().enumerate().filter(|(_, row)| row.packets() > 0) {
            all.add(row);
            row.print(&if pid == PIDS { "lost".to_string() } else { format!("{pid:04x}") }, &mut table);
        }
        all.print("all", &mut table);
        table
    }
}

impl Row {
    fn packets(&self) -> u64 {
        self.changed + self.copied + self.refused.iter().sum::<u64>()
    }

    fn add(&mut self, other: &Row) {
        self.changed += other.changed;
        self.copied += other.copied;
        for (sum, refused) in self.refused.iter_mut().zip(other.refused) {
            *sum += refused;
        }
    }

    fn print(&self, name: &str, table: &mut String) {
        let Row { changed, copied, refused: [lost, field, bits] } = self;
        let _ = writeln!(table, "{name:<4}{:>13}{changed:>13}{copied:>13}{lost:>13}{field:>13}{bits:>13}", self.packets());
    }
}
