elementclass T { input -> c :: Counter -> output; }
elementclass Shaper { $capacity | input -> Queue($capacity) -> output; }
FromDevice(a) -> t :: T -> s :: Shaper(5) -> ToDevice(b);
