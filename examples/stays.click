Idle -> c :: Counter -> s :: Switch(0) -> Discard; s [1] -> Discard;
