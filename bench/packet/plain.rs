//! The work of main.rattle in plain Rust, on an array of 1,600 bytes.

use std::io::{self, BufRead};

#[derive(Debug)]
struct TooLong;

struct Packet {
    bytes: [u8; 1600],
    len: usize,
    #[allow(dead_code)]
    paint: u8,
    #[allow(dead_code)]
    destination: [u8; 4],
}

fn sum_of_words(header: &[u8]) -> u32 {
    header
        .chunks_exact(2)
        .map(|word| u32::from(u16::from_be_bytes([word[0], word[1]])))
        .sum()
}

fn fold(total: u32) -> u16 {
    let once = (total & 0xffff) + (total >> 16);
    ((once & 0xffff) + (once >> 16)) as u16
}

impl Packet {
    fn empty() -> Packet {
        Packet { bytes: [0; 1600], len: 0, paint: 0, destination: [0; 4] }
    }

    fn of(bytes: &[u8]) -> Result<Packet, TooLong> {
        if bytes.len() > 1600 {
            return Err(TooLong);
        }
        let mut packet = Packet::empty();
        packet.bytes[..bytes.len()].copy_from_slice(bytes);
        packet.len = bytes.len();
        Ok(packet)
    }

    fn copy_from(&mut self, source: &Packet) {
        self.bytes[..source.len].copy_from_slice(source.bytes());
        self.len = source.len;
        self.paint = source.paint;
        self.destination = source.destination;
    }

    fn bytes(&self) -> &[u8] {
        &self.bytes[..self.len]
    }

    fn strip(&mut self, count: usize) {
        let count = count.min(self.len);
        self.bytes.copy_within(count..self.len, 0);
        self.len -= count;
    }

    fn prepend(&mut self, front: &[u8]) -> Result<(), TooLong> {
        if self.len + front.len() > 1600 {
            return Err(TooLong);
        }
        self.bytes.copy_within(..self.len, front.len());
        self.bytes[..front.len()].copy_from_slice(front);
        self.len += front.len();
        Ok(())
    }

    fn header_len(&self) -> Option<usize> {
        let len = usize::from(*self.bytes().first()? & 0x0f) * 4;
        (20 <= len && len <= self.len).then_some(len)
    }

    fn header_good(&self, refused: &[[u8; 4]]) -> bool {
        let Some(len) = self.header_len() else {
            return false;
        };
        let header = &self.bytes[..len];
        let total = usize::from(u16::from_be_bytes([header[2], header[3]]));
        header[0] >> 4 == 4
            && len <= total
            && total <= self.len
            && fold(sum_of_words(header)) == 0xffff
            && !refused.contains(&[header[12], header[13], header[14], header[15]])
    }

    fn set_ttl(&mut self, ttl: u8) -> bool {
        let Some(len) = self.header_len() else {
            return false;
        };
        let header = &mut self.bytes[..len];
        header[8] = ttl;
        header[10] = 0;
        header[11] = 0;
        let word = !fold(sum_of_words(header));
        header[10..12].copy_from_slice(&word.to_be_bytes());
        true
    }
}

fn header_for(size: usize) -> Packet {
    let [high, low] = (size as u16).to_be_bytes();
    let bytes = [0x45, 0, high, low, 0, 1, 0, 0, 64, 17, 0, 0, 10, 0, 0, 1, 10, 0, 0, 2];
    let mut packet = Packet::empty();
    packet.prepend(&bytes).unwrap();
    packet.set_ttl(64);
    packet
}

#[inline(never)]
fn forward(bytes: &[u8], header: &[u8]) -> u64 {
    let Ok(mut packet) = Packet::of(bytes) else {
        return 0;
    };
    packet.strip(20);
    if packet.prepend(header).is_err() {
        return 0;
    }
    u64::from(packet.header_good(&[]) && packet.set_ttl(63))
}

#[inline(never)]
fn forward_in_place(packet: &mut Packet, source: &Packet, header: &[u8]) -> u64 {
    packet.copy_from(source);
    packet.strip(20);
    if packet.prepend(header).is_err() {
        return 0;
    }
    u64::from(packet.header_good(&[]) && packet.set_ttl(63))
}

fn main() {
    let mut lines = io::stdin().lock().lines();
    let mut number = || lines.next().unwrap().unwrap().parse::<usize>().unwrap();
    let size = number();
    let rounds = number();
    let in_place = number() == 1;
    let mut bytes = [7u8; 1600];
    let header = header_for(size);
    let mut packet = Packet::empty();
    let source = Packet::of(&bytes[..size]).unwrap();
    let mut good = 0u64;
    for round in 0..rounds {
        bytes[40] = round as u8;
        good += if in_place {
            forward_in_place(&mut packet, &source, header.bytes())
        } else {
            forward(&bytes[..size], header.bytes())
        };
    }
    println!("{good}");
}
