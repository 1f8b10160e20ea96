FromDevice(a) -> c :: Counter -> Discard;
