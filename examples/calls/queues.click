FromDevice(a) -> q :: Queue(2) -> ToDevice(b); FromDevice(c) -> f :: FrontDropQueue(2) -> ToDevice(d);
