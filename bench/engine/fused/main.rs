//! The case `forward` of `engine` of bench/drive, fused by hand into one loop without elements. A
//! packet is copied into a queue of slots and read there. This is a lower bound for a gateway that
//! has no configuration.

use std::hint::black_box;

const ROOM: usize = 1600;
const QUEUE: usize = 1_000;
const ETHERNET: usize = 14;
/// The longest packet that the loop takes, and the size of the buffer in which it is changed.
const LONGEST: usize = 80;

struct Slot {
    bytes: [u8; ROOM],
    len: usize,
}

struct Route {
    network: u32,
    mask: u32,
    gateway: Option<u32>,
}

struct Gateway {
    /// The routes, with the longest prefixes first.
    routes: Vec<Route>,
    header: [u8; ETHERNET],
    queue: Vec<Slot>,
    first: usize,
    len: usize,
    highest: usize,
    count: u64,
    byte_count: u64,
}

fn word(bytes: &[u8], at: usize) -> u32 {
    u32::from(u16::from_be_bytes([bytes[at], bytes[at + 1]]))
}

fn folded(sum: u32) -> u32 {
    let once = (sum & 0xffff) + (sum >> 16);
    (once & 0xffff) + (once >> 16)
}

/// Returns whether a CheckIPHeader would accept the packet.
fn is_good(bytes: &[u8]) -> bool {
    if bytes.len() < 20 || bytes[0] >> 4 != 4 {
        return false;
    }
    let len = usize::from(bytes[0] & 15) * 4;
    let total = word(bytes, 2) as usize;
    if len < 20 || len > bytes.len() || total < len || total > bytes.len() {
        return false;
    }
    let sum = bytes[..len].chunks_exact(2).map(|pair| word(pair, 0)).sum();
    folded(sum) == 0xffff && bytes[12..16] != [255; 4]
}

impl Gateway {
    fn new() -> Gateway {
        let route = |network, len: u32, gateway| {
            let mask = u32::MAX.checked_shl(32 - len).unwrap_or(0);
            Route { network, mask, gateway }
        };
        Gateway {
            routes: vec![
                route(0x0a01_0000, 16, Some(0x0a09_0909)),
                route(0xc0a8_0000, 16, None),
                route(0x0a00_0000, 8, None),
                route(0, 0, None),
            ],
            header: [2, 2, 2, 2, 2, 2, 1, 1, 1, 1, 1, 1, 8, 0],
            queue: (0..QUEUE).map(|_| Slot { bytes: [0; ROOM], len: 0 }).collect(),
            first: 0,
            len: 0,
            highest: 0,
            count: 0,
            byte_count: 0,
        }
    }

    /// Does the work from InfiniteSource to the Queue, and returns whether the packet was stored.
    #[inline(always)]
    fn store(&mut self, source: &[u8]) -> bool {
        let mut room = [0; ETHERNET + LONGEST];
        let len = ETHERNET + source.len();
        if len > room.len() {
            return false;
        }
        let bytes = &mut room[ETHERNET..len];
        bytes.copy_from_slice(source);
        if !is_good(bytes) {
            return false;
        }
        let mut destination = word(bytes, 16) << 16 | word(bytes, 18);
        let Some(route) = self.routes.iter().find(|route| destination & route.mask == route.network) else {
            return false;
        };
        destination = route.gateway.unwrap_or(destination);
        black_box(destination);
        if bytes[8] <= 1 {
            return false;
        }
        bytes[8] -= 1;
        let sum = word(bytes, 10) + 0x100;
        let checksum = ((sum & 0xffff) + (sum >> 16)) as u16;
        bytes[10..12].copy_from_slice(&checksum.to_be_bytes());
        room[..ETHERNET].copy_from_slice(&self.header);
        if self.len == self.queue.len() {
            return false;
        }
        let at = (self.first + self.len) % self.queue.len();
        let slot = &mut self.queue[at];
        slot.bytes[..len].copy_from_slice(&room[..len]);
        slot.len = len;
        self.len += 1;
        self.highest = self.highest.max(self.len);
        true
    }

    /// Does the work from Unqueue over the Counter to Discard.
    #[inline(always)]
    fn take(&mut self) {
        self.count += 1;
        self.byte_count += self.queue[self.first].len as u64;
        self.first = if self.first + 1 == self.queue.len() { 0 } else { self.first + 1 };
        self.len -= 1;
    }

    /// Makes a round, and returns how many packets its two tasks emitted and pulled.
    #[inline(never)]
    fn round(&mut self, source: &[u8]) -> u64 {
        if !self.store(source) {
            return 1;
        }
        self.take();
        2
    }
}

fn main() {
    let times: usize = std::env::args().nth(1).unwrap().parse().unwrap();
    // A packet from 10.0.0.1 to 10.1.0.2, port 1031.
    let mut packet = vec![
        0x45, 0, 0, 64, 0, 1, 0, 0, 64, 17, 0x66, 0xa9, 10, 0, 0, 1, 10, 1, 0, 2, 0x10, 0, 0x04, 0x07, 0, 44, 0, 0,
    ];
    packet.resize(64, 7);
    let mut gateway = Gateway::new();
    let sum: u64 = (0..times).map(|_| black_box(&mut gateway).round(black_box(&packet))).sum();
    println!("{sum} {} {} 0", gateway.count, gateway.byte_count);
}
