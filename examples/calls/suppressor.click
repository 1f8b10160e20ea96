FromDevice(a) -> s :: Suppressor -> c :: Counter -> Discard; FromDevice(b) -> [1] s [1] -> d :: Counter -> Discard;
