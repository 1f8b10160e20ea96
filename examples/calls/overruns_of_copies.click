FromDevice(a) -> t :: Tee -> t; t [1] -> c :: Counter -> Discard;
