FromDevice(a) -> t :: Null -> c :: Counter -> t;
