FromDevice(a) -> c :: Counter -> q :: Queue(2) -> ToDevice(b);
