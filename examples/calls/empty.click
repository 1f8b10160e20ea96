FromDevice(a) -> c :: Counter -> q :: Queue -> ToDevice(b);
