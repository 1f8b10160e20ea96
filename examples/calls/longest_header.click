FromDevice(a) -> d :: DecIPTTL -> Queue -> ToDevice(x); d [1] -> Queue -> ToDevice(y);
