FromDevice(a) -> c :: Counter -> Discard; Idle -> s :: Switch(0) -> Discard; s [1] -> Discard;
