//! The elements.

use crate::packet::Packet;
use crate::router::{Element, Joints, Router};
use std::cell::{Cell, RefCell};
use std::collections::VecDeque;

macro_rules! joints {
    () => {
        fn joints(&self) -> &Joints {
            &self.joints
        }

        fn joints_mut(&mut self) -> &mut Joints {
            &mut self.joints
        }
    };
}

/// FromDevice, ToDevice and Null: packets pass unchanged.
#[derive(Default)]
pub struct Null {
    pub joints: Joints,
}

impl Element for Null {
    joints!();
}

pub struct InfiniteSource {
    pub joints: Joints,
    pub bytes: Vec<u8>,
    pub limit: Option<u64>,
    pub burst: u64,
    pub count: Cell<u64>,
}

impl Element for InfiniteSource {
    joints!();

    fn has_task(&self) -> bool {
        true
    }

    fn run_task(&self, router: &Router) -> u64 {
        let left = self.limit.map_or(u64::MAX, |limit| limit - self.count.get());
        let packets = self.burst.min(left);
        for _packet in 0..packets {
            let mut packet = router.pool.take();
            packet.fill(&self.bytes);
            self.count.set(self.count.get() + 1);
            router.push(&self.joints, 0, packet);
        }
        packets
    }
}

pub fn word(bytes: &[u8], at: usize) -> u16 {
    u16::from_be_bytes([bytes[at], bytes[at + 1]])
}

pub fn header_len(bytes: &[u8]) -> Option<usize> {
    let len = usize::from(*bytes.first()? & 0x0f) * 4;
    (20 <= len && len <= bytes.len()).then_some(len)
}

/// Returns whether the ones' complement sum of a header is ffff. The order of the bytes in a word
/// does not matter.
pub fn sums_up(header: &[u8]) -> bool {
    let total: u64 = header
        .chunks_exact(4)
        .map(|word| u64::from(u32::from_ne_bytes([word[0], word[1], word[2], word[3]])))
        .sum();
    let words = (total & 0xffff) + (total >> 16 & 0xffff) + (total >> 32);
    let once = (words & 0xffff) + (words >> 16);
    (once & 0xffff) + (once >> 16) == 0xffff
}

pub struct CheckIPHeader {
    pub joints: Joints,
    pub refused: Vec<[u8; 4]>,
}

impl CheckIPHeader {
    fn is_good(&self, bytes: &[u8]) -> bool {
        let Some(len) = header_len(bytes) else {
            return false;
        };
        let header = &bytes[..len];
        let total = usize::from(word(header, 2));
        header[0] >> 4 == 4
            && len <= total
            && total <= bytes.len()
            && sums_up(header)
            && !self.refused.contains(&[header[12], header[13], header[14], header[15]])
    }
}

/// Sends a packet to output 1, if it is connected.
pub fn aside(router: &Router, joints: &Joints, packet: Box<Packet>) -> Option<Box<Packet>> {
    router.push(joints, 1, packet);
    None
}

impl Element for CheckIPHeader {
    joints!();

    fn simple_action(&self, router: &Router, packet: Box<Packet>) -> Option<Box<Packet>> {
        if self.is_good(packet.data()) { Some(packet) } else { aside(router, &self.joints, packet) }
    }
}

pub struct GetIPAddress {
    pub joints: Joints,
    pub offset: usize,
}

impl Element for GetIPAddress {
    joints!();

    fn simple_action(&self, _router: &Router, mut packet: Box<Packet>) -> Option<Box<Packet>> {
        let address =
            packet.data().get(self.offset..self.offset + 4).map_or([0; 4], |bytes| bytes.try_into().unwrap());
        packet.destination = u32::from_be_bytes(address);
        Some(packet)
    }
}

#[derive(Clone, Copy)]
pub struct Route {
    pub network: u32,
    pub mask: u32,
    pub len: u32,
    pub gateway: Option<u32>,
    pub output: usize,
}

impl Route {
    pub fn new(network: [u8; 4], len: u32, gateway: Option<[u8; 4]>, output: usize) -> Route {
        let mask = u32::MAX.checked_shl(32 - len).unwrap_or(0);
        let network = u32::from_be_bytes(network) & mask;
        Route { network, mask, len, gateway: gateway.map(u32::from_be_bytes), output }
    }
}

/// Routes with the longest prefixes first, so that the first match is the answer.
pub struct StaticIPLookup {
    pub joints: Joints,
    pub routes: Vec<Route>,
}

impl StaticIPLookup {
    pub fn new(mut routes: Vec<Route>) -> StaticIPLookup {
        routes.sort_by(|a, b| b.len.cmp(&a.len));
        StaticIPLookup { joints: Joints::default(), routes }
    }
}

impl Element for StaticIPLookup {
    joints!();

    fn push(&self, router: &Router, _port: usize, mut packet: Box<Packet>) {
        let address = packet.destination;
        match self.routes.iter().find(|route| address & route.mask == route.network) {
            Some(route) => {
                if let Some(gateway) = route.gateway {
                    packet.destination = gateway;
                }
                router.push(&self.joints, route.output, packet);
            }
            None => router.pool.give(packet),
        }
    }
}

#[derive(Default)]
pub struct DecIPTTL {
    pub joints: Joints,
}

impl Element for DecIPTTL {
    joints!();

    /// Updates the checksum for a time to live that is decremented (RFC 1624).
    fn simple_action(&self, router: &Router, mut packet: Box<Packet>) -> Option<Box<Packet>> {
        let Some(len) = header_len(packet.data()) else {
            return aside(router, &self.joints, packet);
        };
        let header = &mut packet.data_mut()[..len];
        if header[8] <= 1 {
            return aside(router, &self.joints, packet);
        }
        header[8] -= 1;
        let sum = u32::from(!word(header, 10)) + 0xfeff;
        let checksum = !((sum + (sum >> 16)) as u16);
        header[10..12].copy_from_slice(&checksum.to_be_bytes());
        Some(packet)
    }
}

pub struct EtherEncap {
    pub joints: Joints,
    pub header: [u8; 14],
}

impl Element for EtherEncap {
    joints!();

    fn simple_action(&self, router: &Router, mut packet: Box<Packet>) -> Option<Box<Packet>> {
        if packet.prepend(&self.header) {
            Some(packet)
        } else {
            router.pool.give(packet);
            None
        }
    }
}

pub struct Queue {
    pub joints: Joints,
    pub packets: RefCell<VecDeque<Box<Packet>>>,
    pub capacity: usize,
    pub drops: Cell<u64>,
    pub highest: Cell<usize>,
}

impl Queue {
    pub fn new(capacity: usize) -> Queue {
        Queue {
            joints: Joints::default(),
            packets: RefCell::new(VecDeque::with_capacity(capacity)),
            capacity,
            drops: Cell::new(0),
            highest: Cell::new(0),
        }
    }
}

impl Element for Queue {
    joints!();

    fn push(&self, router: &Router, _port: usize, packet: Box<Packet>) {
        let mut packets = self.packets.borrow_mut();
        if packets.len() == self.capacity {
            self.drops.set(self.drops.get() + 1);
            return router.pool.give(packet);
        }
        packets.push_back(packet);
        self.highest.set(self.highest.get().max(packets.len()));
    }

    fn pull(&self, _router: &Router, _port: usize) -> Option<Box<Packet>> {
        self.packets.borrow_mut().pop_front()
    }
}

#[derive(Default)]
pub struct Unqueue {
    pub joints: Joints,
}

impl Element for Unqueue {
    joints!();

    fn has_task(&self) -> bool {
        true
    }

    fn run_task(&self, router: &Router) -> u64 {
        let Some(packet) = router.pull(&self.joints, 0) else {
            return 0;
        };
        router.push(&self.joints, 0, packet);
        1
    }
}

#[derive(Default)]
pub struct Counter {
    pub joints: Joints,
    pub count: Cell<u64>,
    pub byte_count: Cell<u64>,
}

impl Element for Counter {
    joints!();

    fn simple_action(&self, _router: &Router, packet: Box<Packet>) -> Option<Box<Packet>> {
        self.count.set(self.count.get() + 1);
        self.byte_count.set(self.byte_count.get() + packet.data().len() as u64);
        Some(packet)
    }

    fn counts(&self) -> (u64, u64) {
        (self.count.get(), self.byte_count.get())
    }
}

/// A Discard with a push input.
#[derive(Default)]
pub struct Discard {
    pub joints: Joints,
}

impl Element for Discard {
    joints!();

    fn push(&self, router: &Router, _port: usize, packet: Box<Packet>) {
        router.pool.give(packet);
    }
}

pub struct Paint {
    pub joints: Joints,
    pub colour: u8,
}

impl Element for Paint {
    joints!();

    fn simple_action(&self, _router: &Router, mut packet: Box<Packet>) -> Option<Box<Packet>> {
        packet.paint = self.colour;
        Some(packet)
    }
}

#[derive(Default)]
pub struct Tee {
    pub joints: Joints,
}

impl Element for Tee {
    joints!();

    fn push(&self, router: &Router, _port: usize, packet: Box<Packet>) {
        let last = self.joints.outputs.len() - 1;
        for output in 0..last {
            let mut copy = router.pool.take();
            copy.copy_from(&packet);
            router.push(&self.joints, output, copy);
        }
        router.push(&self.joints, last, packet);
    }
}

#[derive(Default)]
pub struct RoundRobinSched {
    pub joints: Joints,
    pub next: Cell<usize>,
}

impl Element for RoundRobinSched {
    joints!();

    fn pull(&self, router: &Router, _port: usize) -> Option<Box<Packet>> {
        let inputs = self.joints.inputs.len();
        let mut input = self.next.get();
        for _input in 0..inputs {
            let packet = router.pull(&self.joints, input);
            input = if input + 1 < inputs { input + 1 } else { 0 };
            if packet.is_some() {
                self.next.set(input);
                return packet;
            }
        }
        None
    }
}

/// A clause of a pattern: the four bytes from an offset on have to equal the value under the mask.
pub struct Clause {
    pub offset: usize,
    pub mask: u32,
    pub value: u32,
}

impl Clause {
    fn holds(&self, bytes: &[u8]) -> bool {
        match bytes.get(self.offset..self.offset + 4) {
            Some(word) => u32::from_be_bytes(word.try_into().unwrap()) & self.mask == self.value,
            None => false,
        }
    }
}

pub struct Classifier {
    pub joints: Joints,
    pub patterns: Vec<Vec<Clause>>,
}

impl Element for Classifier {
    joints!();

    fn push(&self, router: &Router, _port: usize, packet: Box<Packet>) {
        let bytes = packet.data();
        match self.patterns.iter().position(|clauses| clauses.iter().all(|clause| clause.holds(bytes))) {
            Some(output) => router.push(&self.joints, output, packet),
            None => router.pool.give(packet),
        }
    }
}
