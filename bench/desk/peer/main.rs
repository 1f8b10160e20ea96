//! The gateway of the peer of bench/engine behind a mutex, with a history of all calls. A number of
//! threads each make a number of rounds.
#![allow(dead_code)]

#[path = "../../engine/peer/elements.rs"]
mod elements;
#[path = "../../engine/peer/packet.rs"]
mod packet;
#[path = "../../engine/peer/router.rs"]
mod router;
#[path = "../../engine/peer/routers.rs"]
mod routers;

use std::sync::{Barrier, Mutex};

#[derive(Clone)]
enum Call {
    Round,
    Write(Box<[u8]>, Box<[u8]>),
}

#[derive(Clone)]
enum Reply {
    Worked(u64),
    Value(Box<[u8]>),
}

struct Entry {
    seat: usize,
    call: Call,
    reply: Reply,
}

struct Desk {
    router: router::Router,
    entries: Vec<Entry>,
}

// Only the thread that holds the mutex uses the router.
struct Owned(Desk);
unsafe impl Send for Owned {}

/// The calls of one seat, with their replies.
fn work(desk: &Mutex<Owned>, seat: usize, rounds: usize) -> Vec<(Call, Reply)> {
    let mut calls = Vec::new();
    for _ in 0..rounds {
        let mut desk = desk.lock().unwrap();
        let reply = Reply::Worked(desk.0.router.round());
        desk.0.entries.push(Entry { seat, call: Call::Round, reply: reply.clone() });
        drop(desk);
        calls.push((Call::Round, reply));
    }
    calls
}

fn main() {
    let numbers: Vec<usize> = std::env::args().skip(1).map(|word| word.parse().unwrap()).collect();
    let (seats, rounds) = (numbers[0], numbers[1]);
    let desk = Mutex::new(Owned(Desk { router: routers::forward(), entries: Vec::new() }));
    let all = Barrier::new(seats);
    let calls: usize = std::thread::scope(|scope| {
        let threads: Vec<_> = (0..seats).map(|seat| scope.spawn({
            let (desk, all) = (&desk, &all);
            move || { all.wait(); work(desk, seat, rounds) }
        })).collect();
        threads.into_iter().map(|thread| thread.join().unwrap().len()).sum()
    });
    let desk = desk.into_inner().unwrap().0;
    assert!(calls == desk.entries.len() && desk.entries.iter().all(|e| e.seat < seats));
    let worked: u64 = desk.entries.iter().map(|e| if let Reply::Worked(n) = e.reply { n } else { 0 }).sum();
    println!("{worked}");
}
