Idle -> s :: Switch(0) -> c :: Counter -> Discard; s [1] -> Discard;
