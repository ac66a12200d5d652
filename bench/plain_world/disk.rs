//! The files of a replica, in memory.
use crate::wire::{PACKET, Packet};

#[derive(Default)]
struct File {
    bytes: Vec<u8>,
    synced: usize,
}

impl File {
    fn write(&mut self, at: usize, bytes: &[u8]) {
        if self.bytes.len() < at + bytes.len() {
            self.bytes.resize(at + bytes.len(), 0);
        }
        self.bytes[at..at + bytes.len()].copy_from_slice(bytes);
    }

    fn sync(&mut self) {
        self.synced = self.bytes.len();
    }
}

/// The files of a replica: which area is selected, and two areas of bodies behind gates.
#[derive(Default)]
pub struct Disk {
    chooser: File,
    areas: [File; 2],
    selected: usize,
}

impl Disk {
    /// A record joins the selected area: its body and a closed gate, and then its own gate, each synced.
    pub fn append(&mut self, record: Packet) {
        let area = &mut self.areas[self.selected];
        let tail = area.bytes.len().saturating_sub(1);
        let mut bytes = Vec::with_capacity(PACKET + 1);
        record.write(&mut bytes);
        bytes.push(0);
        area.write(tail + 1, &bytes);
        area.sync();
        area.write(tail, &[1]);
        area.sync();
    }

    /// The other area is written anew with these records, and selected.
    pub fn rewrite(&mut self, records: &[Packet]) {
        let other = 1 - self.selected;
        let mut bytes = Vec::with_capacity(records.len() * (PACKET + 1) + 1);
        for record in records {
            bytes.push(1);
            record.write(&mut bytes);
        }
        bytes.push(0);
        let area = &mut self.areas[other];
        area.bytes.clear();
        area.write(0, &bytes);
        area.sync();
        self.chooser.write(0, &[other as u8]);
        self.chooser.sync();
        self.selected = other;
    }

    pub fn records(&self) -> Vec<Packet> {
        let bodies = self.areas[self.selected].bytes.chunks_exact(PACKET + 1);
        bodies.take_while(|body| body[0] == 1).map(|body| Packet::read(&body[1..])).collect()
    }
}
