FromDevice(a) -> Queue(64) -> ToDevice(b);
