//! Reads a Counter's count repeatedly.

mod router;

use router::{Call, Reply, Router};

fn main() {
    let words: Vec<String> = std::env::args().collect();
    let elements = words[2].parse().unwrap_or(0);
    let times: usize = words[3].parse().unwrap_or(0);
    let mut router = Router::open(elements);
    let call = Call::Read {
        name: b"c.count".to_vec(),
        text: Vec::new(),
    };
    let mut bytes: usize = 0;
    for _ in 0..times {
        if let Reply::Value(value) = std::hint::black_box(&mut router).step(std::hint::black_box(&call)) {
            bytes += std::hint::black_box(&value).len();
        }
    }
    println!("{bytes}");
}
