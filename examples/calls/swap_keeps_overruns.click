FromDevice(a) -> n :: Null -> n;
