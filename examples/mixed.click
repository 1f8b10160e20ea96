FromDevice(a) -> Null -> ToDevice(b);
