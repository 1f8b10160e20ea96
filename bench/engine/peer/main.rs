//! The cases of `engine` of bench/drive in plain Rust. Elements are boxed trait objects that are
//! connected by index. Packets come from a pool and are passed on in their boxes. Pushes and pulls
//! are recursive virtual calls. A case whose name begins with `long-` has packets of 1,500 bytes.

mod elements;
mod packet;
mod router;
mod routers;

use packet::Packet;
use router::Router;

fn enter(router: &Router, packet: &Packet, times: usize) -> u64 {
    (0..times).map(|_| u64::from(router.enter(b"a", packet))).sum()
}

fn enter_each(router: &Router, packet: &mut Packet, times: usize) -> u64 {
    let mut taken = 0;
    for time in 0..times {
        packet.destination = u32::from_be_bytes([10, (time / 256 % 4) as u8, (time % 256) as u8, 1]);
        taken += u64::from(router.enter(b"a", packet));
    }
    taken
}

fn enter_pull_four(router: &Router, packet: &Packet, times: usize) -> u64 {
    let mut bytes = 0;
    for time in 0..times {
        let device: &[u8] = [b"a", b"c", b"d", b"e"][time % 4];
        router.enter(device, packet);
        if let Some(packet) = router.transmit(b"b") {
            bytes += packet.data().len() as u64;
            router.pool.give(packet);
        }
    }
    bytes
}

fn main() {
    let words: Vec<String> = std::env::args().collect();
    let times: usize = words[2].parse().unwrap();
    let mut packet = Packet::empty();
    let (len, case) = match words[1].strip_prefix("long-") {
        Some(rest) => (1_500, rest),
        None => (64, words[1].as_str()),
    };
    packet.fill(&routers::packet_bytes(len));
    let (router, sum) = match case {
        "forward" => {
            let router = routers::forward(len);
            let sum = (0..times).map(|_| router.round()).sum();
            (router, sum)
        }
        "sched" => {
            let router = routers::sched();
            let sum = enter_pull_four(&router, &packet, times);
            (router, sum)
        }
        "lookup" => {
            let router = routers::lookup();
            let sum = enter_each(&router, &mut packet, times);
            (router, sum)
        }
        "lookup-last" => {
            let router = routers::lookup();
            packet.destination = u32::from_be_bytes([10, 3, 255, 1]);
            let sum = enter(&router, &packet, times);
            (router, sum)
        }
        other => {
            let router = match other {
                "chain" => routers::chain(),
                "tee" => routers::tee(),
                "classifier" => routers::classifier(),
                _ => panic!("no such case"),
            };
            let sum = enter(&router, &packet, times);
            (router, sum)
        }
    };
    let (count, byte_count) = router.counts();
    println!("{sum} {count} {byte_count} 0");
}
