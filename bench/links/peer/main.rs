//! The forwarder that bench/links compares the router with: two UDP sockets, and a thread for each
//! direction. A datagram that one socket gets from its peer is sent by the other one to its own
//! peer.
//!
//!     peer HERE THERE OTHER_HERE OTHER_THERE

use std::net::{Ipv4Addr, SocketAddr, UdpSocket};
use std::sync::atomic::{AtomicU64, Ordering::Relaxed};
use std::thread;

/// The maximum number of bytes of a packet.
const LONGEST: usize = 1600;

struct Link {
    socket: UdpSocket,
    there: SocketAddr,
    elsewhere: AtomicU64,
    too_long: AtomicU64,
}

fn link(here: u16, there: u16) -> Link {
    let socket = UdpSocket::bind((Ipv4Addr::LOCALHOST, here)).expect("a port that is free");
    Link { socket, there: (Ipv4Addr::LOCALHOST, there).into(), elsewhere: AtomicU64::new(0), too_long: AtomicU64::new(0) }
}

fn carry(from: &Link, to: &Link) -> ! {
    let mut buffer = [0; 65536];
    loop {
        let Ok((len, sender)) = from.socket.recv_from(&mut buffer) else { continue };
        if sender != from.there {
            from.elsewhere.fetch_add(1, Relaxed);
        } else if len > LONGEST {
            from.too_long.fetch_add(1, Relaxed);
        } else {
            let _ = to.socket.send_to(&buffer[..len], to.there);
        }
    }
}

fn main() {
    let ports: Vec<u16> = std::env::args().skip(1).map(|it| it.parse().expect("a port")).collect();
    let (one, other) = (link(ports[0], ports[1]), link(ports[2], ports[3]));
    thread::scope(|threads| {
        threads.spawn(|| carry(&one, &other));
        carry(&other, &one)
    })
}
