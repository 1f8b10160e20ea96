FromDevice(a) -> t :: Tee -> q0 :: Queue -> ToDevice(x); t [1] -> Paint(7) -> q1 :: Queue -> ToDevice(y);
