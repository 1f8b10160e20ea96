FromDevice(a) -> t :: Tee -> c :: Counter -> Discard; t [1] -> t;
