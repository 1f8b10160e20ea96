FromDevice(a) -> q :: Queue -> ToDevice(b);
