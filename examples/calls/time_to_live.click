FromDevice(a) -> Queue -> d :: DecIPTTL -> ToDevice(b); d [1] -> c :: Counter -> Discard;
