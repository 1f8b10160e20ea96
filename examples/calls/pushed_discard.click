FromDevice(a) -> Queue -> t :: PullTee -> ToDevice(b); t [1] -> c :: Counter -> Discard;
