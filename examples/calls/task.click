FromDevice(a) -> q :: Queue -> Unqueue -> c :: Counter -> Discard;
