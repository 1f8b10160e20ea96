FromDevice(a) -> s :: Switch(1); s -> c :: Counter -> Queue -> [0] p :: PullSwitch; s [1] -> Queue -> [1] p; p -> ToDevice(b);
