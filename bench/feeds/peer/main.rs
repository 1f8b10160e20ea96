//! A packet of 64 bytes through a ring of one producer and one consumer in plain Rust, as the crate
//! rtrb does it. Each end has an index and a copy of the other end's index, which is read again
//! only if the ring seems full or empty. Slots are written and read in place.
use std::cell::UnsafeCell;
use std::mem::MaybeUninit;
use std::sync::Arc;
use std::sync::atomic::{AtomicUsize, Ordering};

struct Packet {
    bytes: Vec<u8>,
    paint: u8,
    destination: [u8; 4],
}

#[repr(align(128))]
struct Padded(AtomicUsize);

struct Shared {
    head: Padded,
    tail: Padded,
    slots: Box<[UnsafeCell<MaybeUninit<Packet>>]>,
}

unsafe impl Sync for Shared {}
unsafe impl Send for Shared {}

struct Producer {
    shared: Arc<Shared>,
    head: usize,
    tail: usize,
}

struct Consumer {
    shared: Arc<Shared>,
    head: usize,
    tail: usize,
}

impl Shared {
    /// Indices count modulo twice the number of places, to distinguish a full ring from an empty
    /// one.
    fn distance(&self, from: usize, to: usize) -> usize {
        if from <= to { to - from } else { 2 * self.slots.len() - from + to }
    }
    fn next(&self, at: usize) -> usize {
        if at + 1 == 2 * self.slots.len() { 0 } else { at + 1 }
    }
    fn slot(&self, at: usize) -> *mut MaybeUninit<Packet> {
        let place = if at < self.slots.len() { at } else { at - self.slots.len() };
        unsafe { self.slots.get_unchecked(place).get() }
    }
}

impl Producer {
    fn push(&mut self, packet: Packet) -> Result<(), Packet> {
        if self.shared.distance(self.head, self.tail) == self.shared.slots.len() {
            self.head = self.shared.head.0.load(Ordering::Acquire);
            if self.shared.distance(self.head, self.tail) == self.shared.slots.len() {
                return Err(packet);
            }
        }
        unsafe { (*self.shared.slot(self.tail)).write(packet) };
        self.tail = self.shared.next(self.tail);
        self.shared.tail.0.store(self.tail, Ordering::Release);
        Ok(())
    }
}

impl Consumer {
    fn pop(&mut self) -> Option<Packet> {
        if self.head == self.tail {
            self.tail = self.shared.tail.0.load(Ordering::Acquire);
            if self.head == self.tail {
                return None;
            }
        }
        let packet = unsafe { (*self.shared.slot(self.head)).assume_init_read() };
        self.head = self.shared.next(self.head);
        self.shared.head.0.store(self.head, Ordering::Release);
        Some(packet)
    }
}

fn ring(places: usize) -> (Producer, Consumer) {
    let slots = (0..places).map(|_| UnsafeCell::new(MaybeUninit::uninit())).collect();
    let shared = Arc::new(Shared { head: Padded(AtomicUsize::new(0)), tail: Padded(AtomicUsize::new(0)), slots });
    (Producer { shared: shared.clone(), head: 0, tail: 0 }, Consumer { shared, head: 0, tail: 0 })
}

/// Draws up to `most` packets, as a poll does.
#[inline(never)]
fn draw(consumer: &mut Consumer, most: usize, taken: &mut Vec<Packet>) {
    for _ in 0..most {
        let Some(packet) = consumer.pop() else { return };
        taken.push(packet);
    }
}

#[inline(never)]
fn put(producer: &mut Producer, packet: Packet) -> Result<(), Packet> {
    producer.push(packet)
}

fn main() {
    let times: usize = std::env::args().nth(1).and_then(|word| word.parse().ok()).unwrap_or(0);
    let (mut producer, mut consumer) = ring(64);
    let mut taken = Vec::with_capacity(1);
    let mut packet = Packet { bytes: vec![7; 64], paint: 0, destination: [0; 4] };
    for _ in 0..times {
        if put(&mut producer, packet).is_err() {
            println!("false");
            return;
        }
        draw(&mut consumer, 1, &mut taken);
        packet = taken.pop().unwrap();
    }
    println!("{}", packet.bytes.len() == 64 && packet.paint == 0 && packet.destination == [0; 4]);
}
