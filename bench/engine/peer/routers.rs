//! The routers of the cases.

use crate::elements::*;
use crate::router::{Joints, Router};
use std::cell::Cell;

/// A packet of `len` bytes, at least 64, from 10.0.0.1 to 10.1.0.2, port 1031.
pub fn packet_bytes(len: usize) -> Vec<u8> {
    let mut bytes = vec![
        0x45, 0, 0, 64, 0, 1, 0, 0, 64, 17, 0x66, 0xa9, 10, 0, 0, 1, 10, 1, 0, 2, 0x10, 0, 0x04, 0x07, 0, 44,
        0, 0,
    ];
    bytes.resize(len, 7);
    bytes
}

pub fn forward(len: usize) -> Router {
    let mut router = Router::new();
    let routes = vec![
        Route::new([0, 0, 0, 0], 0, None, 0),
        Route::new([10, 0, 0, 0], 8, None, 0),
        Route::new([10, 1, 0, 0], 16, Some([10, 9, 9, 9]), 0),
        Route::new([192, 168, 0, 0], 16, None, 0),
    ];
    let header = [2, 2, 2, 2, 2, 2, 1, 1, 1, 1, 1, 1, 8, 0];
    let source = InfiniteSource {
        joints: Joints::default(),
        bytes: packet_bytes(len),
        limit: None,
        burst: 1,
        count: Cell::new(0),
    };
    let elements = [
        router.add(source),
        router.add(CheckIPHeader { joints: Joints::default(), refused: Vec::new() }),
        router.add(GetIPAddress { joints: Joints::default(), offset: 16 }),
        router.add(StaticIPLookup::new(routes)),
        router.add(DecIPTTL::default()),
        router.add(EtherEncap { joints: Joints::default(), header }),
        router.add(Queue::new(1_000)),
        router.add(Unqueue::default()),
        router.add(Counter::default()),
        router.add(Discard::default()),
    ];
    router.chain(&elements);
    router.note_tasks();
    router
}

/// Returns a router with a FromDevice(a) as its first element.
pub fn with_device() -> Router {
    let mut router = Router::new();
    let source = router.add(Null::default());
    router.sources.push((b"a".to_vec(), source));
    router
}

pub fn chain() -> Router {
    let mut router = with_device();
    let mut elements = vec![0];
    for colour in 1..=5 {
        elements.push(router.add(Null::default()));
        elements.push(router.add(Paint { joints: Joints::default(), colour }));
    }
    elements.push(router.add(Discard::default()));
    router.chain(&elements);
    router
}

pub fn tee() -> Router {
    let mut router = with_device();
    let tee = router.add(Tee::default());
    router.join(0, 0, tee, 0);
    for output in 0..16 {
        let discard = router.add(Discard::default());
        router.join(tee, output, discard, 0);
    }
    router
}

pub fn sched() -> Router {
    let mut router = Router::new();
    let sched = router.add(RoundRobinSched::default());
    for (input, device) in [b"a", b"c", b"d", b"e"].into_iter().enumerate() {
        let source = router.add(Null::default());
        router.sources.push((device.to_vec(), source));
        let queue = router.add(Queue::new(1_000));
        router.join(source, 0, queue, 0);
        router.join(queue, 0, sched, input);
    }
    let sink = router.add(Null::default());
    router.sinks.push((b"b".to_vec(), sink));
    router.join(sched, 0, sink, 0);
    router
}

pub fn classifier() -> Router {
    let mut router = with_device();
    let patterns = (0..32)
        .map(|i| {
            vec![
                Clause { offset: 8, mask: 0x00ff0000, value: 0x00110000 },
                Clause { offset: 20, mask: 0x0000ffff, value: 1_000 + i },
            ]
        })
        .collect();
    let classifier = router.add(Classifier { joints: Joints::default(), patterns });
    router.join(0, 0, classifier, 0);
    for output in 0..32 {
        let discard = router.add(Discard::default());
        if output < 31 {
            router.join(classifier, output, discard, 0);
        } else {
            let counter = router.add(Counter::default());
            router.join(classifier, output, counter, 0);
            router.join(counter, 0, discard, 0);
        }
    }
    router
}

pub fn lookup() -> Router {
    let mut router = with_device();
    let routes =
        (0..1_024_u32).map(|i| Route::new([10, (i / 256) as u8, (i % 256) as u8, 0], 24, None, 0)).collect();
    let elements = [
        0,
        router.add(StaticIPLookup::new(routes)),
        router.add(Counter::default()),
        router.add(Discard::default()),
    ];
    router.chain(&elements);
    router
}
