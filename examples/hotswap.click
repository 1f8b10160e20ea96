FromDevice(a) -> q :: Queue(3) -> ToDevice(b);
