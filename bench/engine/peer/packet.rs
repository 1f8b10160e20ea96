//! Packets, and the pool that they come from.

use std::cell::RefCell;

pub const LIMIT: usize = 1600;
/// The room for headers before a packet's bytes.
pub const HEADROOM: usize = 64;

pub struct Packet {
    bytes: [u8; HEADROOM + LIMIT],
    start: usize,
    end: usize,
    pub paint: u8,
    pub destination: u32,
}

impl Packet {
    pub fn empty() -> Packet {
        Packet { bytes: [0; HEADROOM + LIMIT], start: HEADROOM, end: HEADROOM, paint: 0, destination: 0 }
    }

    pub fn data(&self) -> &[u8] {
        &self.bytes[self.start..self.end]
    }

    pub fn data_mut(&mut self) -> &mut [u8] {
        &mut self.bytes[self.start..self.end]
    }

    pub fn fill(&mut self, data: &[u8]) {
        self.start = HEADROOM;
        self.end = HEADROOM + data.len();
        self.bytes[HEADROOM..][..data.len()].copy_from_slice(data);
        self.paint = 0;
        self.destination = 0;
    }

    pub fn copy_from(&mut self, source: &Packet) {
        self.fill(source.data());
        self.paint = source.paint;
        self.destination = source.destination;
    }

    /// Puts `front` before the bytes, if they fit.
    pub fn prepend(&mut self, front: &[u8]) -> bool {
        let len = self.end - self.start;
        if len + front.len() > LIMIT {
            return false;
        }
        if self.start < front.len() {
            let start = self.bytes.len() - len;
            self.bytes.copy_within(self.start..self.end, start);
            self.start = start;
            self.end = self.bytes.len();
        }
        self.start -= front.len();
        self.bytes[self.start..][..front.len()].copy_from_slice(front);
        true
    }
}

/// The packets that are not in use.
#[derive(Default)]
pub struct Pool {
    free: RefCell<Vec<Box<Packet>>>,
}

impl Pool {
    pub fn take(&self) -> Box<Packet> {
        self.free.borrow_mut().pop().unwrap_or_else(|| Box::new(Packet::empty()))
    }

    pub fn give(&self, packet: Box<Packet>) {
        self.free.borrow_mut().push(packet);
    }
}
