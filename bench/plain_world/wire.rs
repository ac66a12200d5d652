//! Packets of letters and records of disks, as docs/WIRE.md has them.
use crate::table::{Entry, Row};

pub const PACKET: usize = 56;

/// A packet of a letter, or a record of a disk, as its fields.
#[derive(Clone, Copy, Default)]
pub struct Packet {
    pub kind: u8,
    pub from: u8,
    pub tag: u8,
    pub job: u32,
    pub ballot: u64,
    pub slot: u64,
    pub old: u64,
    pub at: i64,
    pub now: i64,
    pub last: i64,
}

// The kinds of packets.
pub const PREPARE: u8 = 1;
pub const PROMISE: u8 = 2;
pub const OLD_VOTE: u8 = 3;
pub const ACCEPT: u8 = 4;
pub const ACCEPTED: u8 = 5;
pub const NACK: u8 = 6;
pub const KNOWN: u8 = 7;
pub const ASK_FROM: u8 = 8;
pub const SNAPSHOT: u8 = 9;
pub const ROW: u8 = 10;
pub const LEAD: u8 = 11;
// The kinds of records.
pub const TRIED: u8 = 1;
pub const PROMISED: u8 = 2;
pub const VOTED: u8 = 3;
pub const BASE: u8 = 4;
pub const BASE_ROW: u8 = 5;

impl Packet {
    pub fn of(kind: u8, ballot: u64, slot: u64) -> Packet {
        Packet { kind, ballot, slot, ..Packet::default() }
    }

    pub fn with_entry(mut self, entry: Entry) -> Packet {
        (self.tag, self.job, self.at, self.now) = match entry {
            Entry::Noop => (0, 0, 0, 0),
            Entry::Start { job, at, now } => (1, job, at, now),
            Entry::End { job, at, launched } => (if launched { 2 } else { 3 }, job, at, 0),
        };
        self
    }

    pub fn entry(&self) -> Entry {
        match self.tag {
            0 => Entry::Noop,
            1 => Entry::Start { job: self.job, at: self.at, now: self.now },
            tag => Entry::End { job: self.job, at: self.at, launched: tag == 2 },
        }
    }

    pub fn of_row(kind: u8, slot: u64, job: usize, row: &Row) -> Packet {
        let tag = row.cursor.is_some() as u8 | (row.open.is_some() as u8) << 1 | (row.last.is_some() as u8) << 2;
        let (at, now, last) = (row.cursor.unwrap_or(0), row.open.unwrap_or(0), row.last.unwrap_or(0));
        let (ballot, old) = (row.launched as u64, row.voided as u64);
        Packet { kind, from: 0, tag, job: job as u32, ballot, slot, old, at, now, last }
    }

    pub fn row(&self) -> Row {
        let told = |bit: u8, value: i64| (self.tag >> bit & 1 == 1).then_some(value);
        let (launched, voided) = (self.ballot as u32, self.old as u32);
        Row { cursor: told(0, self.at), open: told(1, self.now), last: told(2, self.last), launched, voided }
    }

    pub fn write(&self, out: &mut Vec<u8>) {
        out.extend_from_slice(&[self.kind, self.from, self.tag, 0]);
        out.extend_from_slice(&self.job.to_be_bytes());
        for word in [self.ballot, self.slot, self.old, self.at as u64, self.now as u64, self.last as u64] {
            out.extend_from_slice(&word.to_be_bytes());
        }
    }

    pub fn read(bytes: &[u8]) -> Packet {
        let word = |at: usize| u64::from_be_bytes(bytes[at..at + 8].try_into().unwrap());
        let job = u32::from_be_bytes(bytes[4..8].try_into().unwrap());
        let (at, now, last) = (word(32) as i64, word(40) as i64, word(48) as i64);
        let (kind, from, tag) = (bytes[0], bytes[1], bytes[2]);
        Packet { kind, from, tag, job, ballot: word(8), slot: word(16), old: word(24), at, now, last }
    }
}
